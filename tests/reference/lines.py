"""The program's language, from document 01 "The night print" and requests 3, 4 and 5 of document 02: bytes in, bytes out."""
import survey

LETTERS = {b'K': survey.KNOWN, b'F': survey.FREE, b'V': survey.HEIGHT}
WORDS = ('PASS', 'FAIL', 'LOOSE', 'LOW', 'HIGH', 'NONE')
ENTERS = (b'H', b'B', b'P')


class Unreadable(Exception):
    pass


def number(field):
    digits = field[1:] if field[:1] == b'-' else field
    if not digits or any(not 48 <= b <= 57 for b in digits):
        raise Unreadable
    if len(digits.lstrip(b'0')) > 19:       # beyond 64 bits; leading zeros may run to any length
        raise Unreadable
    value = int(digits.lstrip(b'0') or b'0')
    value = -value if field[:1] == b'-' else value
    if not -2 ** 63 <= value < 2 ** 63:
        raise Unreadable
    return value


def numbers(fields, count):
    if len(fields) != count:
        raise Unreadable
    return [number(f) for f in fields]


def record(kind, fields):
    """(place, record) of the fields after H, B or P. A B line without antenna heights has heights of 0."""
    if kind == b'H':
        place, start, end, up, weight = numbers(fields, 5)
        return place, survey.Level(start, end, up, weight)
    if kind == b'P':
        place, station, *values = numbers(fields, 11)
        return place, survey.Position(station, tuple(values[:3]), tuple(values[3:]))
    values = numbers(fields, 14 if len(fields) == 14 else 12)
    return values[0], survey.Baseline(values[1], values[2], tuple(values[3:6]), tuple(values[6:12]), tuple(values[12:]) or (0, 0))


def edit_of(fields):
    """The ledger's call and its arguments, of an edit's fields; None where the line is no edit. R before H, B or P changes nothing."""
    if fields[0] == b'R' and len(fields) > 1 and fields[1] in ENTERS:
        fields = fields[1:]
    head, *rest = fields
    if head in ENTERS:
        return 'enter', *record(head, rest)
    if head == b'D':
        return 'strike', *numbers(rest, 1)
    return ('undo',) if fields == [b'U'] else None


def split(data):
    """The lines: each ends in LF; the last may lack it."""
    lines = data.split(b'\n')
    return lines[:-1] if lines[-1] == b'' else lines


class Run:
    def __init__(self, propose):
        self.rows = []            # S lines read
        self.ledger = None
        self.x = self.m = None    # latest readable ones
        self.out = []
        self.propose = propose

    def say(self, text):
        self.out.append(text.encode() + b'\n')

    def open(self):
        """False where the opening is refused."""
        if self.ledger is None:
            refused = survey.open_number(self.rows)
            if refused:
                self.say('REFUSED %d' % refused)
                return False
            self.ledger = survey.Ledger(survey.Network(survey.Station(*row) for row in self.rows))
        return True

    def apply(self, line):
        """The refusal number of an edit, 0 for none; Unreadable is raised."""
        if len(line) > 50_000:
            raise Unreadable
        fields = line.split(b' ')
        head = fields[0]
        if head == b'S':
            if self.ledger is not None or len(fields) != 6 or fields[2] not in LETTERS:
                raise Unreadable
            values = [number(f) for f in (fields[1], fields[3], fields[4], fields[5])]
            if values[0] != len(self.rows) + 1:
                raise Unreadable
            self.rows.append((LETTERS[fields[2]], *values[1:]))
            return 0
        edit = edit_of(fields)
        if edit:
            return self.edit(*edit)
        if head in (b'X', b'M'):
            values = [number(f) for f in fields[1:]]
            if len(values) > (48 if head == b'X' else 2304):
                raise Unreadable
            if head == b'X':
                self.x = values
            else:
                self.m = values
            return 0
        raise Unreadable

    def edit(self, call, *arguments):
        return getattr(self.ledger, call)(*arguments)

    def run(self, data):
        for k, line in enumerate(split(data), 1):
            if line.split(b' ', 1)[0] != b'S' and not self.open():
                return b''.join(self.out)
            try:
                refused = self.apply(line)
                if refused:
                    self.say('LINE %d REFUSED %d' % (k, refused))
            except Unreadable:
                self.say('LINE %d UNREADABLE' % k)
        if self.open():
            self.finish()
        return b''.join(self.out)

    def finish(self):
        net, records = self.ledger.net, self.ledger.records()
        x, m = self.x, self.m
        if x is None and m is None:
            pair = self.propose(net, records)
            if pair is None:
                self.say('NO PROPOSAL')
                return
            x, m = pair
        x, m = x or [], m or []
        answer = survey.check(net, records, x, m)
        if answer != (0,):
            self.say('REFUSED ' + ' '.join(map(str, answer)))
            return
        self.print_sheet(net, records, x, m)

    def print_sheet(self, net, records, x, m):
        words = survey.sheet(net, records, x, m)
        self.say('SHEET %d RECORDS %d UNKNOWNS' % (words[0], words[1]))
        at = 2
        for _ in net.stations:
            self.say(' '.join(map(str, words[at:at + 7])))
            at += 7
        for _, r in sorted(records.items()):
            k = len(r.components)
            line = words[at:at + 1 + 2 * k]
            self.say(' '.join([str(v) for v in line[:1 + k]] + [WORDS[v] for v in line[1 + k:]]))
            at += 1 + 2 * k
        t, d, verdict = words[at:]
        self.say('GLOBAL %d %d %s' % (t, d, WORDS[verdict]))
