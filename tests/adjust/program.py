"""Runs the program on bytes, and says what it must print."""
import os
import subprocess
import sys

HERE = os.path.dirname(os.path.abspath(__file__))
ROOT = os.path.dirname(os.path.dirname(HERE))


def built(crate):
    """Where `rt ci` and `rt run` leave a program."""
    return os.path.join('crates', crate, 'out', crate)


PROGRAM = os.path.join(ROOT, built('adjust'))
WHOLE = os.path.join(ROOT, built('test_whole_texts'))
LONGEST = 8192      # bytes of a text that WHOLE takes
WRAPPER = os.path.join(ROOT, 'bin', 'adjust')
sys.path.insert(0, os.path.join(HERE, '..', 'reference'))
import kinds
import lines
import proposals
import survey

LIMIT = 60      # seconds that no run takes
BAD_PLACE = 2


def output(data, path=PROGRAM):
    """What the program prints for these bytes; an error text or a status other than 0 is shown in it, and so is a wrong output."""
    done = subprocess.run([path], input=data, stdout=subprocess.PIPE, stderr=subprocess.PIPE, timeout=LIMIT, close_fds=False)
    if done.returncode or done.stderr:
        return done.stdout + b'(status %d) ' % done.returncode + done.stderr
    return done.stdout


def first_difference(got, want):
    g, w = got.split(b'\n'), want.split(b'\n')
    k = next((k for k, (a, b) in enumerate(zip(g, w)) if a != b), min(len(g), len(w)))

    def shown(rows):
        return rows[k][:200] if k < len(rows) else b'(nothing)'
    return 'line %d is %r, not %r' % (k + 1, shown(g), shown(w))


def is_number(field):
    try:
        lines.number(field)
    except lines.Unreadable:
        return False
    return True


class Noted(lines.Run):
    """The reference, with what accepted edits find at their place, as `enter over another record`, and where R is before the line `R enter over another record`; with the counts of
    numbers on B and P lines, and what the antenna heights of baselines and the values of positions lead to."""

    def __init__(self, propose=lambda net, records: None):
        super().__init__(propose)
        self.mark = ''
        self.found = set()
        self.taken = {}           # positions by the place from which an accepted edit took them

    def apply(self, line):
        self.mark = 'R ' if line[:2] == b'R ' else ''
        head, *fields = line[len(self.mark):].split(b' ')
        if head in (b'B', b'P') and all(map(is_number, fields)):
            self.found.add('%s%s and %d numbers' % (self.mark, head.decode(), len(fields)))
        return super().apply(line)

    def edit(self, call, *arguments):
        place = arguments[0] if arguments else self.ledger.edits[-1] if self.ledger.edits else None
        before = self.ledger.at(place)
        refused = super().edit(call, *arguments)
        if call == 'enter' and refused != BAD_PLACE:
            self.note_values(arguments[1])
        if not refused:
            self.note_edit(call, place, before, self.ledger.at(place))
        return refused

    def note_values(self, r):
        heights = kinds.of_heights(self.ledger.net, r)
        self.found |= {'antenna heights: ' + heights} if heights else set()
        self.found |= {'position: ' + what for what in kinds.of_position(self.ledger.net, r)}

    def note_edit(self, call, place, before, after):
        exchange = kinds.of_exchange(call, before, after)
        self.found |= {self.mark + kinds.of_edit(call, before, after)} | ({exchange} if exchange else set())
        if isinstance(before, survey.Position):
            self.taken[place] = before

    def lacks_position(self):
        """Whether unknowns have no chain, and would have one with the positions that edits took away."""
        net, records = self.ledger.net, self.ledger.records()
        return bool(survey.untied(net, records)) and not survey.untied(net, {**records, **self.taken})


class Expected:
    """What the reference prints for these bytes. Where the engine proposes, `network` is what it proposes for, and `messages` what stands before its sheet."""

    def __init__(self, data):
        self.network = None
        self.run = Noted(self.propose)
        self.text = self.run.run(data)

    def propose(self, net, records):
        self.network = net, records
        self.messages = b''.join(self.run.out)
        return proposals.rounded(net, records)

    def difference(self, got):
        """What is wrong with the printed bytes; None where nothing is. They are those of the reference; only a sheet that the engine proposed may differ, as
        `proposals` says, and it may stand where the rounded exact pair fails a limit by which another accepted pair is within it."""
        if got == self.text:
            return None
        if self.network is None or not got.startswith(self.messages + b'SHEET '):
            return first_difference(got, self.text)
        return proposals.judge(*self.network, got[len(self.messages):])
