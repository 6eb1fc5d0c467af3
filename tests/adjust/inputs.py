"""Random inputs of the program, each made from its seed alone. Most are damaged: what people mistype, and numbers at the limits.

    inputs.py SEED        writes that input to standard output
"""
from dataclasses import replace
from itertools import permutations
import os
import random
import sys

sys.path.insert(0, os.path.join(os.path.dirname(os.path.abspath(__file__)), '..', 'reference'))
import antennas
import lines
import observed_positions
import solve
import survey

LETTER = {survey.KNOWN: b'K', survey.FREE: b'F', survey.HEIGHT: b'V'}
WORD = [2 ** 63 - 1, 2 ** 63, -2 ** 63, -2 ** 63 - 1, 2 ** 64, 10 ** 19, 10 ** 30]      # 64 bits from both sides
LINE = 50_000                                                                            # bytes of the longest readable line
END = survey.MOST_COORDINATE                                                             # of the range of coordinates


def joined(*fields):
    return b' '.join(f if isinstance(f, bytes) else b'%d' % f for f in fields)


def station_line(number, row):
    return joined(b'S', number, LETTER[row[0]], *row[1:])


def record_line(place, r, zeros=False):
    """The line of a record; antenna heights that are both 0 stand there only where they are asked for."""
    if isinstance(r, survey.Level):
        return joined(b'H', place, r.start, r.end, r.up, r.single)
    if isinstance(r, survey.Position):
        return joined(b'P', place, r.station, *r.observed, *r.weights)
    return joined(b'B', place, r.start, r.end, *r.observed, *r.weights, *(r.heights if zeros or any(r.heights) else ()))


def weights(rng, scale):
    """Six weights, mostly within the rules; strong correlations come near the limits of refusal 5."""
    d = [rng.randint(1, scale) for _ in range(3)]
    strength = rng.choice((0, 0.1, 0.5, 0.9))
    off = [int(rng.uniform(-strength, strength) * (d[a] * d[b]) ** 0.5) for a, b in ((0, 1), (0, 2), (1, 2))]
    return d[0], off[0], off[1], d[1], off[2], d[2]


class Survey:
    """Stations at random, and records at them and between them."""

    def __init__(self, rng, count, scale, noise=None, held=True):
        """Without a noise, as large as the weights say: a standard deviation is 1,000 over the root of the weight. The first station is known; without `held` none is."""
        self.rng, self.scale, self.noise = rng, scale, noise or int(2_000 / (scale / 2) ** 0.5)
        self.latest = {}            # records by the place that they were last given
        far = rng.choice((1_000, 10_000_000, 499_000_000))
        first = survey.KNOWN if held else survey.FREE
        others = (first, survey.FREE, survey.FREE, survey.HEIGHT, survey.HEIGHT)
        self.rows = [(first if k == 0 else rng.choice(others), *[rng.randint(-far, far) for _ in range(3)]) for k in range(count)]

    def lines(self):
        return [station_line(k, row) for k, row in enumerate(self.rows, 1)]

    def numbers(self):
        return range(1, len(self.rows) + 1)

    def seen(self, *from_to):
        """Values near those that the provisional coordinates give, of one station or from one to another."""
        *start, end = (self.rows[number - 1] for number in from_to)
        return tuple(end[c] - sum(row[c] for row in start) + self.rng.randint(-self.noise, self.noise) for c in (1, 2, 3))

    def between(self, start, end):
        """A record from one station to another."""
        rng = self.rng
        east, north, up = self.seen(start, end)
        if rng.random() < 0.45:
            return survey.Level(start, end, up, rng.randint(1, self.scale))
        heights = antennas.heights(rng)
        return survey.Baseline(start, end, (east, north, up - heights[0] + heights[1]), weights(rng, self.scale), heights)

    def position(self, station):
        return survey.Position(station, self.seen(station), weights(self.rng, self.scale))

    def record(self):
        """One of any kind; where there is no second station, a position."""
        rng = self.rng
        if len(self.rows) == 1 or rng.random() < 0.25:
            return self.position(rng.choice(self.numbers()))
        return self.between(*rng.sample(self.numbers(), 2))

    def tie(self, station):
        """A position, or a record from an earlier station; one that acts in E and N where these are unknown."""
        rng = self.rng
        while True:
            r = self.position(station) if station == 1 or rng.random() < 0.15 else self.between(rng.randrange(1, station), station)
            if self.rows[station - 1][0] != survey.FREE or len(r.components) == 3:
                return r

    def chained(self):
        """Records that tie every station, then records at random."""
        ties = [self.tie(number) for number in self.numbers() if number > 1 or self.rows[0][0] != survey.KNOWN]
        return ties + [self.record() for _ in range(self.rng.randint(0, 2 * len(self.rows)))]


def damaged(rng, line):
    """The line with one mistake."""
    fields = line.split(b' ')
    k = rng.randrange(len(fields))
    kind = rng.randrange(18)
    if kind == 0:
        fields[k] = b'%d' % rng.choice(WORD + [0, -1, 1, 33, 256, 257, 10_000, 10_001, 100_000, 100_001, 300_000, 300_001, END, END + 1, -END, -END - 1,
                                               10 ** 9, 10 ** 9 + 1, -10 ** 9, -10 ** 9 - 1])
    elif kind == 1:
        fields[k] = rng.choice((b'', b'-', b'+1', b'--1', b'1-', b'1.0', b'1e3', b'0x10', b'\xd9\xa1', b'1\x00', b'a', b'S', b'\xff', b'1,000', b'-+1', b'- 1'))
    elif kind == 2:
        fields[k] = fields[k].replace(b'-', b'-000') if fields[k][:1] == b'-' else b'000' + fields[k]
    elif kind == 3:
        fields[k] = rng.choice((b'-0', b'0', b'-00', b'0000000000000000000000000000'))
    elif kind == 4:
        del fields[k]
    elif kind == 5:
        fields.insert(k, rng.choice((b'0', b'1', b'', b'K', b'H', b'P')))
    elif kind == 6:
        fields.append(rng.choice((b'', b'0', b'\r', b'7')))
    elif kind == 7:
        fields[-1] += b'\r'
    elif kind == 8 and len(fields) > 1:
        return b'\t'.join((b' '.join(fields[:k]), b' '.join(fields[k:])))
    elif kind == 9:
        fields[0] = rng.choice((b'h', b'R', b'RH', b'Q', b'', b'S', b's', b'D', b'U', b'X', b'M', b'HB', b'\x00', b'B', b'H', b'P', b'p', b'RP'))
    elif kind == 10:
        return b' ' + line
    elif kind == 11:
        at = rng.randrange(len(line) + 1)
        return line[:at] + bytes([rng.randrange(256)]).replace(b'\n', b'?') + line[at:]
    elif kind == 12 and line:
        at = rng.randrange(len(line))
        return line[:at] + line[at + 1:]
    elif kind == 13 and len(fields) > 1:
        j = rng.randrange(len(fields))
        fields[k], fields[j] = fields[j], fields[k]
    elif kind == 14:
        fields[k:k] = fields[k:k + 2]
    elif kind == 15:
        value = fields[k]
        if value.lstrip(b'-').isdigit():
            fields[k] = b'%d' % (int(value) + rng.choice((-1, 1, 100_000, -100_000, 100_001)))
    elif kind == 16:
        fields = fields[:-1] if rng.random() < 0.5 else fields + [b'100']
    elif kind == 17:
        fields[-1 - rng.randrange(min(2, len(fields)))] = b'%d' % rng.choice(antennas.NEAR)      # of a B line, an antenna height where it has them
    return b' '.join(fields)


def typed_line(rng, place, r, share):
    """The line of a record, this share of them with R before it; antenna heights of 0 are left out or not."""
    line = record_line(place, r, rng.random() < 0.3)
    return b'R ' + line if rng.random() < share else line


def without_r(data):
    """The text without the R before an H, a B or a P."""
    return b'\n'.join(line[2:] if line[:2] == b'R ' and enters(line[2:]) else line for line in data.split(b'\n'))


def with_r(data):
    """The text with R before each H, B or P line, but for one that would be too long to be read."""
    return b'\n'.join(b'R ' + line if enters(line) and len(line) + 2 <= LINE else line for line in data.split(b'\n'))


def at_marks(data):
    """The text with the baselines from mark to mark: each B line with antenna heights without them, its U difference the reduced one; but for lines that break a rule of either."""
    return b'\n'.join(map(line_at_marks, data.split(b'\n')))


def line_at_marks(line):
    fields = line.split(b' ')
    if len(line) > LINE or fields[:-14] not in ([b'B'], [b'R', b'B']):
        return line
    try:
        _, r = lines.record(b'B', fields[-14:])
    except lines.Unreadable:
        return line
    if not all(0 <= h <= antennas.MOST for h in r.heights) or max(abs(r.observed[2]), abs(r.reduced[2])) > survey.MOST_DIFFERENCE:
        return line
    fields[-9] = b'%d' % r.reduced[2]
    return b' '.join(fields[:-2])


def enters(line):
    return line.split(b' ', 1)[0] in lines.ENTERS


def padded(rng, line, length):
    """The line with zeros put before one of its numbers, so that it has this many bytes; the line itself where it has no number."""
    fields = line.split(b' ')
    at = [k for k, f in enumerate(fields) if f.isdigit()]
    if not at or len(line) > length:
        return line
    k = rng.choice(at)
    fields[k] = b'0' * (length - len(line)) + fields[k]
    return b' '.join(fields)


def edit(rng, book, places):
    """An edit line at one of the places, whatever they hold; some records are those that the place was last given."""
    kind = rng.random()
    place = rng.choice(places)
    if kind < 0.5:
        if place not in book.latest or rng.random() < 0.8:
            book.latest[place] = book.record()
        return typed_line(rng, place, book.latest[place], 0.4)
    if kind < 0.75:
        return b'D %d' % place
    return b'U'


def with_damage(rng, text, share):
    return [damaged(rng, line) if rng.random() < share else line for line in text]


def rounded_pair(text):
    """The exact pair, rounded, of the network as the lines so far leave it; zeros of the right lengths where it is not tied, None where no book opens."""
    run = lines.Run(lambda net, records: None)
    run.run(b'\n'.join(text))
    if run.ledger is None:
        return None
    net, records = run.ledger.net, run.ledger.records()
    if survey.untied(net, records):
        return [0] * net.n, [0] * (net.n * net.n)
    return solve.rounded(*survey.normals(net, records))


def spoilt_pair(rng, x, m):
    """The pair with a mistake that one of tests 1 to 7 may see, or may let pass."""
    x, m = list(x), list(m)
    kind = rng.randrange(9)
    i = rng.randrange(len(x))
    k = rng.randrange(len(m))
    if kind == 0:
        x[i] += rng.choice((-1, 1))
    elif kind == 1:
        x[i] += rng.choice((-2, 2, 10, 1_000, 20_000))
    elif kind == 2:
        x[i] = rng.choice((100_000, 100_001, -100_000, -100_001, *WORD))
    elif kind == 3:
        m[k] += rng.choice((1, -1, 5, 1000, 2 ** 16, 2 ** 20, 2 ** 26, -2 ** 26))
    elif kind == 4:
        m[k] = rng.choice((0, 2 ** 34, 2 ** 34 + 1, -2 ** 34, -2 ** 34 - 1, *WORD))
    elif kind == 5:
        x = x[:-1] if rng.random() < 0.5 else x + [0]
    elif kind == 6:
        m = m[:-1] if rng.random() < 0.5 else m + [0]
    elif kind == 7:
        n = len(x)
        j = rng.randrange(n)
        m[i * n:i * n + n], m[j * n:j * n + n] = m[j * n:j * n + n], m[i * n:i * n + n]
    else:
        return rng.choice((([], []), (x, []), ([], m), (m, x)))
    return x, m


def solution(rng, text):
    """Lines X and M for the network as the lines leave it: right, spoilt, one alone, twice, or damaged."""
    pair = rounded_pair(text) or ([0], [0])
    good = [joined(b'X', *pair[0]), joined(b'M', *pair[1])]
    kind = rng.random()
    if kind < 0.5:
        return good
    x, m = spoilt_pair(rng, *pair)
    bad = [joined(b'X', *x), joined(b'M', *m)]
    if kind < 0.75:
        return bad
    if kind < 0.85:
        return bad + good if rng.random() < 0.5 else good + bad
    if kind < 0.9:
        return [rng.choice(good)]
    return good + [damaged(rng, rng.choice(good))]


def network(rng):
    """A network people would enter, with mistakes among its lines, and a solution."""
    book = Survey(rng, rng.choice((2, 2, 3, 3, 4, 5, 6)), rng.choice((5, 100, 10_000)), rng.choice((None, None, None, 2_000, 90_000)), rng.random() < 0.85)
    records = book.chained()
    book.latest = dict(enumerate(records, 1))
    share, r_share = rng.choice((0, 0, 0.05, 0.3)), rng.choice((0, 0, 0.3, 1))
    text = book.lines()
    if rng.random() < 0.15:
        text = with_damage(rng, text, 0.3)
    text += with_damage(rng, [typed_line(rng, k, r, r_share) for k, r in enumerate(records, 1)], share)
    text += with_damage(rng, [edit(rng, book, range(1, len(records) + 2)) for _ in range(rng.choice((0, 0, 3, 10)))], share)
    answer = solution(rng, text)
    if rng.random() < 0.2:
        answer.insert(rng.randrange(len(answer) + 1), edit(rng, book, range(1, len(records) + 2)))
    if rng.random() < 0.1:
        text, answer = text[:len(book.rows)] + answer + text[len(book.rows):], []
    return text + answer


def editing(rng):
    """Many edits at few places: the history runs full, and undos go beyond its start."""
    book = Survey(rng, rng.choice((2, 3, 4)), 100)
    places = rng.choice(([1], [1, 2], [1, 2, 3, 256], [0, 1, 2, 256, 257], list(range(1, 9))))
    text = [edit(rng, book, places) for _ in range(rng.choice((10, 40, 80, 200)))]
    if rng.random() < 0.4:
        text += [b'U'] * rng.choice((5, 64, 70))
        text += [edit(rng, book, places) for _ in range(rng.choice((0, 3, 80)))]
    text = book.lines() + with_damage(rng, text, rng.choice((0, 0.02, 0.1)))
    return text + solution(rng, text)


def history(rng):
    """Accepted edits, about as many as the history keeps or twice that, then about as many undos; then the same again."""
    book = Survey(rng, 3, 100)
    text, filled = book.lines(), {}
    for _ in range(rng.choice((1, 2))):
        undone = []
        for _ in range(rng.choice((62, 63, 64, 65, 66, 67, 130))):
            place = rng.randint(1, 5)
            line = b'D %d' % place
            if not filled.get(place) or rng.random() < 0.7:
                start, end = rng.sample(book.numbers(), 2)
                height = survey.Level(start, end, book.seen(start, end)[2], rng.randint(1, 100))
                line = typed_line(rng, place, rng.choice((height, survey.Position(end, book.seen(end), observed_positions.PLAIN))), 0.5)
            undone.append((place, filled.get(place)))
            filled[place] = line[:1] != b'D'
            text.append(line)
        count = rng.choice((1, 62, 63, 64, 65, 66, 67))
        text += [b'U'] * count
        for place, before in list(reversed(undone))[:min(count, 64)]:
            filled[place] = before
    return text + solution(rng, text)


def station_list(rng):
    """A list of stations with mistakes in it, or one beyond the limits."""
    kind = rng.randrange(6)
    book = Survey(rng, rng.choice((1, 2, 3, 5)), 100, 1_000)
    text = book.lines()
    if kind == 0:
        text = with_damage(rng, text, 0.5)
    elif kind == 1:
        count = rng.choice((31, 32, 33, 34, 40))
        text = [station_line(k, (survey.KNOWN if k > 1 else survey.HEIGHT, k, k, k)) for k in range(1, count + 1)]
    elif kind == 2:
        free = rng.choice((15, 16, 17))
        text = [station_line(k, (survey.FREE if k <= free else rng.choice((survey.KNOWN, survey.HEIGHT)), 0, 0, 0)) for k in range(1, free + rng.randint(0, 3) + 1)]
    elif kind == 3:
        k = rng.randrange(len(text))
        text.insert(rng.randrange(len(text) + 1), text[k])
    elif kind == 4:
        row = (rng.choice((1, 2, 3)), *[rng.choice((500_000_000, -500_000_000, 500_000_001, -500_000_001, *WORD)) if rng.random() < 0.4 else 0 for _ in range(3)])
        text.append(station_line(len(text) + 1, row))
    else:
        text.insert(rng.randrange(len(text) + 1), rng.choice((b'', b' ', b'U', b'X', b'M', b'D 1', b'\r', b'S', b'Q', b'S ', b's 1 K 0 0 0')))
    text += [record_line(k, book.record()) for k in range(1, 4)]
    if rng.random() < 0.3:
        text.append(station_line(len(book.rows) + 1, (survey.FREE, 0, 0, 0)))
    return text + solution(rng, text)


def broken_bytes(rng):
    """A network's text with bytes put in, taken out and changed anywhere, line ends too."""
    data = bytearray(b'\n'.join(network(rng)) + b'\n')
    for _ in range(rng.choice((1, 1, 2, 5, 20))):
        at = rng.randrange(len(data))
        kind = rng.randrange(4)
        if kind == 0:
            data[at:at] = rng.choice((b'\n', b' ', b'\r', b'\t', b'\x00', b'-', b'0', b'9', b'S', b'\n\n', b'\r\n', b'\x0b', b'\xa0'))
        elif kind == 1:
            del data[at:at + rng.choice((1, 1, 3))]
        elif kind == 2:
            data[at] = rng.randrange(256)
        else:
            data[at] ^= 1 << rng.randrange(8)
        if not data:
            break
    return bytes(data).split(b'\n')


def tokens(rng):
    """Fields of the language in any order."""
    words = [b'S', b'H', b'B', b'P', b'R', b'D', b'U', b'X', b'M', b'K', b'F', b'V', b'1', b'2', b'0', b'-1', b'100', b'1000', b'-0', b'', b'9223372036854775808']
    text = [b'S 1 K 0 0 0', b'S 2 V 0 0 1000', b'S 3 F 0 0 0'][:rng.choice((0, 2, 3, 3))]
    for _ in range(rng.randint(1, 30)):
        text.append(b' '.join(rng.choice(words) for _ in range(rng.choice((1, 1, 2, 2, 3, 6, 12, 13, 15)))))
    return text


def long_lines(rng):
    """Lines about as long as may be read, and X and M about as many numbers as they take."""
    book = Survey(rng, 3, 100, 1_000)
    text = book.lines()
    if rng.random() < 0.2:
        text[-1] = padded(rng, text[-1], rng.choice((LINE, LINE + 1)))
    body = [record_line(k, book.record()) for k in range(1, 6)] + [b'D 2', b'U', b'R ' + record_line(3, book.record())]
    body = [padded(rng, line, rng.choice((LINE - 1, LINE, LINE, LINE + 1, LINE + 2, 70_000))) if rng.random() < 0.4 else line for line in body]
    extra = rng.choice(([joined(b'X', *[0] * rng.choice((47, 48, 49, 50)))], [joined(b'M', *[7] * rng.choice((2303, 2304, 2305)))],
                        [padded(rng, joined(b'M', *range(2304)), rng.choice((LINE, LINE + 1)))], [b'X' + b' ' * rng.choice((1, LINE - 1, LINE))],
                        [b'Q' * rng.choice((LINE, LINE + 1, 200_000))], [b' ' * (LINE + 1)]))
    body[rng.randrange(len(body)):0] = extra
    return text + body + (solution(rng, text + body) if rng.random() < 0.7 else [])


def height_limits(rng):
    """Baselines whose U differences and misclosures, observed and reduced, and antenna heights are at their limits or one from them."""
    book = Survey(rng, 4, 100)
    book.rows = [(kind, *row[1:3], up) for kind, row, up in zip((survey.KNOWN, survey.FREE, *(row[0] for row in book.rows[2:])), book.rows, (-END, END, 0, 70_000))]
    text = book.lines() + [typed_line(rng, k, r, 0.3) for k, r in enumerate(book.chained(), 1)]
    for place in range(20, 20 + rng.choice((4, 8, 16))):
        start, end = rng.sample(range(1, 5), 2)
        a, b = book.rows[start - 1], book.rows[end - 1]
        up = b[3] - a[3]
        observed, heights = antennas.beside(rng, up if abs(up) == survey.MOST_DIFFERENCE else up + rng.choice((-1, 1)) * survey.MOST_MISCLOSURE)
        if rng.random() < 0.3:
            heights = tuple(rng.choice((h, h, rng.choice(antennas.NEAR))) for h in heights)
        r = survey.Baseline(start, end, (b[1] - a[1], b[2] - a[2], observed), (100, 9, -9, 100, 9, 100), heights)
        text.append(typed_line(rng, place, r, 0.3))
        text += [b'U'] * (rng.random() < 0.2)
    return text + solution(rng, text)


def position_limits(rng):
    """Positions whose coordinates, misclosures or weights are at their limits or one from them, at stations in the list or not, over each other and at places of their own."""
    book = Survey(rng, 4, 100)
    book.rows = [(row[0], *[rng.choice((-END, END, END - 50, v)) for v in row[1:]]) for row in book.rows]
    net = survey.Network(survey.Station(*row) for row in book.rows)
    text = book.lines()
    for _ in range(rng.choice((4, 8, 16))):
        r = observed_positions.beside(rng, net, rng.choice(book.numbers()))
        if rng.random() < 0.15:
            r = replace(r, station=rng.choice((-1, 0, len(book.rows) + 1, 33, *WORD)))
        text.append(typed_line(rng, rng.randint(20, 30), r, 0.3))
        text += [b'U'] * (rng.random() < 0.2)
    text += [typed_line(rng, k, survey.Position(number, observed_positions.near(rng, net, number), observed_positions.PLAIN), 0.3) for k, number in enumerate(book.numbers(), 1)]
    return text + solution(rng, text)


def levelled(book):
    """The first station known, height differences from there to all others, a position at one of these, and baselines from it: where a station is free, E and N are tied by the position
    alone, U is not."""
    book.rows[0] = (survey.KNOWN, *book.rows[0][1:])
    _, *others = book.numbers()
    at = book.rng.choice(others)
    heights = [survey.Level(1, number, book.seen(1, number)[2], book.rng.randint(1, book.scale)) for number in others]
    return heights + [book.position(at)] + [survey.Baseline(at, number, book.seen(at, number), weights(book.rng, book.scale)) for number in others if number != at]


def marks(rng):
    """Networks that positions tie: at every station, at one, or in E and N alone. In some a position is struck, or another record entered over it; in some of these it comes back."""
    book = Survey(rng, rng.choice((2, 3, 4, 5)), rng.choice((100, 10_000)), held=False)
    kind = rng.randrange(3)
    records = levelled(book) if kind == 0 else book.chained() if kind == 1 else [book.position(k) for k in book.numbers()] + [book.record() for _ in range(rng.randrange(4))]
    rng.shuffle(records)
    text = book.lines() + [typed_line(rng, k, r, 0.3) for k, r in enumerate(records, 1)]
    place = rng.choice([k for k, r in enumerate(records, 1) if isinstance(r, survey.Position)])
    if rng.random() < 0.6:
        text.append(rng.choice((b'D %d' % place, typed_line(rng, place, book.between(*rng.sample(book.numbers(), 2)), 0.3))))
        text += [rng.choice((b'U', typed_line(rng, place, records[place - 1], 0.3)))] * (rng.random() < 0.3)
    return text + (solution(rng, text) if rng.random() < 0.8 else [])


def proposed(rng):
    """No X and no M: the engine proposes."""
    book = Survey(rng, rng.choice((2, 3, 4, 5, 6, 8)), rng.choice((3, 100, 10_000)), rng.choice((None, None, 1, 2_000, 60_000)), rng.random() < 0.85)
    records = book.chained() if rng.random() < 0.9 else [book.record()]
    text = book.lines() + with_damage(rng, [record_line(k, r) for k, r in enumerate(records, 1)], rng.choice((0, 0, 0.1)))
    if rng.random() < 0.2:
        text.append(rng.choice((b'X 1 a', b'M -', b'X  1', b'x 0')))
    return text


def full_size(rng):
    """32 stations, 48 unknowns, 256 records."""
    book = Survey(rng, 32, 10_000, 2_000)
    kinds = [survey.KNOWN] * 8 + [survey.FREE] * 12 + [survey.HEIGHT] * 12
    book.rows = [(kind, *row[1:]) for kind, row in zip(kinds, book.rows)]
    net = survey.Network(survey.Station(*row) for row in book.rows)
    records = {}
    while len(records) < 256:
        r = book.record()
        if survey.record_number(net, r) == 0:
            records[len(records) + 1] = r
    text = book.lines() + [record_line(k, r) for k, r in records.items()]
    return text + (solution(rng, text) if rng.random() < 0.7 else [])


KINDS = [(network, 34), (editing, 14), (history, 4), (station_list, 12), (broken_bytes, 16), (tokens, 8), (long_lines, 2), (proposed, 10), (height_limits, 6),
         (position_limits, 4), (marks, 8)]
WHEEL = [kind for kind, share in KINDS for _ in range(share)]
FULL_EVERY = 500


def made(seed):
    """(kind, bytes)"""
    rng = random.Random(seed)
    kind = full_size if seed % FULL_EVERY == FULL_EVERY - 1 else WHEEL[seed % len(WHEEL)]
    data = b'\n'.join(kind(rng))
    return kind.__name__, data if rng.random() < 0.15 else data + b'\n'


def levelling_line(count):
    """Marks one after another from a known one, with weights 1: the last variance is as many times S, and the limit of M is 16 times S."""
    text = [b'S 1 K 0 0 0'] + [b'S %d V 0 0 0' % k for k in range(2, count + 2)]
    return b'\n'.join(text + [b'H %d %d %d 0 1' % (k, k, k + 1) for k in range(1, count + 1)]) + b'\n'


# Inputs that a random one seldom hits.
HEAD = b'S 1 K 0 0 100000\nS 2 V 0 0 101000\n'
PAIR = b'H 1 1 2 1000 100\nH 2 1 2 1100 100\n'
PAIR_SOLVED = b'X 50\nM 5368709\n'
SECOND_KNOWN = HEAD + b'S 3 K 700 -400 100300\n'
SECOND_HEIGHT = HEAD + b'S 3 V 700 -400 100300\n'
FREE_HEAD = b'S 1 K 0 0 100000\nS 2 F 0 0 101000\n'
# Observed U difference and antenna heights; the reduced difference is within 1,000,000,000 in every second one; in the last two of those the observed one is not.
ABOUT_THE_LIMIT = [(10 ** 9, 1, 0), (10 ** 9, 0, 1), (10 ** 9 - 299_999, 300_000, 0), (10 ** 9 - 300_000, 300_000, 0), (10 ** 9 + 1, 1, 1), (10 ** 9, 300_000, 300_000),
                   (10 ** 9 + 1, 0, 0), (10 ** 9 - 1, 1, 0), (10 ** 9 + 300_000, 0, 299_999), (10 ** 9 + 1, 0, 1), (10 ** 9, 2, 1), (10 ** 9 + 300_000, 0, 300_000)]


def baselines(*rows):
    """Baselines from station 1 to 2, each at a place of its own, by their observed U difference and antenna heights."""
    return b''.join(b'B %d 1 2 0 0 %d 100 0 0 100 0 100 %d %d\n' % (place, *row) for place, row in enumerate(rows, 1))


FREE_MARKS = b'S 1 F 0 0 100000\nS 2 F 5000 -5000 101000\n'
FREE_BASELINE = b'B 9 1 2 5010 -5020 1030 100 20 -30 90 10 80\n'
SIX_ZEROS = b'X 0 0 0 0 0 0\nM' + b' 0' * 36 + b'\n'
AT_THE_ENDS = (END, -END, END)                                   # coordinates of a station
WEIGHTS = [observed_positions.exchanged(w, axes) for w in observed_positions.WEIGHTS for axes in permutations(range(3))]


def position_lines(*rows, weights=(100, 20, -30, 90, 10, 80), first=1):
    """Positions by their station and coordinates, each at a place of its own."""
    return b''.join(record_line(place, survey.Position(station, tuple(observed), weights)) + b'\n' for place, (station, *observed) in enumerate(rows, first))


def each_in_turn(values, *others):
    """The three values with one of them, each in turn, put to each of the others; these by the sign of the value."""
    return [tuple((-1 if v < 0 else 1) * other if k == c else v for k, v in enumerate(values)) for c in range(3) for other in others]


NAMED = {
    'nothing at all': b'',
    'an empty line': b'\n',
    'empty lines': b'\n' * 5,
    'a blank': b' ',
    'a zero byte': b'\x00',
    'a zero byte in a line': HEAD + b'U\x00\nH 1 1 2 1000\x00 100\n' + PAIR,
    'no last line end': HEAD + PAIR + b'X 50\nM 5368709',
    'CR before each line end': (HEAD + PAIR).replace(b'\n', b'\r\n'),
    'tabs': (HEAD + PAIR).replace(b' ', b'\t'),
    'a tab in a record': HEAD + PAIR.replace(b' 2 ', b'\t2 '),
    'only stations': HEAD,
    'only known stations': b'S 1 K 0 0 0\nS 2 K 0 0 0\n',
    'a byte order mark': b'\xef\xbb\xbf' + HEAD + PAIR,
    'S after the opening': HEAD + b'U\nS 3 V 0 0 0\n' + PAIR,
    'S out of turn': b'S 2 K 0 0 0\nS 1 K 0 0 0\nS 1 K 0 0 0\nS 2 V 0 0 0\nH 1 1 2 0 1\n',
    'S with another letter': b'S 1 k 0 0 0\nS 1 A 0 0 0\nS 1 K 0 0 0\nS 2 V 0 0 0\nH 1 1 2 0 1\n',
    'an S line too long, then the list goes on': b'S 1 K 0 0 0\nS ' + b'0' * LINE + b'\nS 2 V 0 0 0\nH 1 1 2 0 1\n',
    'a first line too long opens': b'Q' * (LINE + 1) + b'\nS 1 V 0 0 0\n',
    '33 stations': b''.join(b'S %d V 0 0 0\n' % k for k in range(1, 34)) + PAIR,
    'a hundred thousand stations': b''.join(b'S %d V 0 0 0\n' % k for k in range(1, 100_001)) + b'S 5 V 0 0 0\n',
    'no station that can be read': b'S 1 K 0 0\nS 1 Q 0 0 0\nS 2 K 0 0 0\n',
    'X of 48 and of 49 numbers': HEAD + PAIR + b'X' + b' 1' * 48 + b'\nX' + b' 1' * 49 + b'\nM 5368709\n',
    'M of 2,304 and of 2,305 numbers': HEAD + PAIR + b'X 50\nM' + b' 1' * 2304 + b'\nM' + b' 1' * 2305 + b'\n',
    'X alone': HEAD + PAIR + b'X 50\n',
    'M alone': HEAD + PAIR + b'M 5368709\n',
    'X and M empty': HEAD + PAIR + b'X\nM\n',
    'X with a blank and no number': HEAD + PAIR + b'X \nM 5368709\n',
    'an unreadable X after a readable one': HEAD + PAIR + b'X 50\nM 5368709\nX fifty\n',
    'a later X': HEAD + PAIR + b'X 51\nM 5368709\nX 50\n',
    'X first': HEAD + b'X 50\nM 5368709\n' + PAIR,
    'R before others': HEAD + PAIR + b'R D 1\nR U\nR X 1\nR\nR R H 1 1 2 1000 100\nR S 3 K 0 0 0\nR H 1 1 2 1010 100\n',
    'R in other words': HEAD + PAIR + b'r H 1 1 2 1010 100\nRH 1 1 2 1010 100\nR  H 1 1 2 1010 100\nR h 1 1 2 1010 100\nH R 1 1 2 1010 100\nR H\nR B\nR H 1 1 2 1010\n' + PAIR_SOLVED,
    'R before the first record, which opens': HEAD + b'R H 1 1 2 1000 100\nS 3 V 0 0 0\nH 2 1 2 1100 100\n' + PAIR_SOLVED,
    'R at empty places': HEAD + b'R H 1 1 2 1000 100\nR H 2 1 2 1100 100\n' + PAIR_SOLVED,
    'R at an empty place, undone': HEAD + PAIR + b'R H 3 1 2 1200 100\nU\nD 3\n' + PAIR_SOLVED,
    'a line of 50,000 bytes with its R, and one of 50,001': HEAD + PAIR + b'R H 1 1 2 ' + b'0' * (LINE - 18) + b'1010 100\nR H 1 1 2 ' + b'0' * (LINE - 17) + b'1020 100\n',
    'a record entered over another': HEAD + PAIR + b'H 2 1 2 1200 100\nX 100\nM 5368709\n',
    'a record entered over another, with R': HEAD + PAIR + b'R H 2 1 2 1200 100\nX 100\nM 5368709\n',
    'a record entered over another, with the solution from before': HEAD + PAIR + b'H 2 1 2 1200 100\n' + PAIR_SOLVED,
    'a record entered over another, and undone': HEAD + PAIR + b'H 2 1 2 1200 100\nU\n' + PAIR_SOLVED,
    'a record entered over another, struck, and both undone': HEAD + PAIR + b'H 2 1 2 1200 100\nD 2\nD 2\nU\nU\n' + PAIR_SOLVED,
    'a record entered at an empty place, and undone': HEAD + PAIR + b'H 3 1 2 1200 100\nU\nD 3\n' + PAIR_SOLVED,
    'a record entered over an equal one, and undone': HEAD + PAIR + b'H 2 1 2 1100 100\nR H 2 1 2 1100 100\nU\nU\n' + PAIR_SOLVED,
    'a record entered over an equal one, and undone once more': HEAD + PAIR + b'H 2 1 2 1100 100\nU\nU\nX 0\nM 10737418\n',
    'a record entered over an equal one 64 times pushes out the others': HEAD + PAIR + b'H 2 1 2 1100 100\n' * 64 + b'U\n' * 65 + PAIR_SOLVED,
    'a refused record leaves the one at its place': HEAD + PAIR + b'H 2 1 2 101001 100\nR H 2 1 3 1100 100\nR H 2 1 2 1100 0\nU\nH 2 1 2 1100 100\n' + PAIR_SOLVED,
    'a baseline entered over a height difference': HEAD + PAIR + b'B 2 1 2 300 -200 1010 100 20 -30 90 10 80\n',
    'a baseline entered over a height difference, and undone': HEAD + PAIR + b'B 2 1 2 300 -200 1010 100 20 -30 90 10 80\nU\n' + PAIR_SOLVED,
    'a height difference entered over a baseline': HEAD + b'B 1 1 2 300 -200 1010 100 20 -30 90 10 80\nB 2 1 2 300 -200 1010 100 20 -30 90 10 80\n' + PAIR + PAIR_SOLVED,
    'a height difference entered over a baseline, and undone': HEAD + b'B 1 1 2 300 -200 1010 100 20 -30 90 10 80\nH 1 1 2 1000 100\nU\n',
    'strikes of empty places': HEAD + b'D 1\n' + PAIR + b'D 3\nD 2\nD 2\nH 2 1 2 1100 100\nD 256\n' + PAIR_SOLVED,
    'undo beyond': HEAD + PAIR + b'U\nU\nU\nU\n',
    '65 edits and 66 undos': HEAD + b'H 1 1 2 1000 100\n' + b'H 1 1 2 1001 100\nR H 1 1 2 1002 100\n' * 32 + b'U\n' * 66,
    '64-bit ends': HEAD + b'H 1 1 2 -9223372036854775808 100\nH 1 1 2 9223372036854775807 100\nH 1 1 2 9223372036854775808 100\nH 1 1 2 -9223372036854775809 100\n' + PAIR,
    'leading zeros and -0': b'S 01 K -0 00 0100000\nS 0002 V 0 0 101000\nH 001 01 2 01000 0100\nH -0 1 2 1000 100\n',
    'no proposal': HEAD,
    'a correction at the limit': HEAD + b'H 1 1 2 101000 1\nH 2 1 2 101000 1\n',
    'a correction beyond the limit': HEAD + b'S 3 V 0 0 102000\nH 1 1 2 101000 1\nH 2 2 3 101000 1\n',
    'a correction beyond the limit, given': HEAD + b'S 3 V 0 0 102000\nH 1 1 2 101000 1\nH 2 2 3 101000 1\nX 100000 200000\nM 1073741824 1073741824 1073741824 2147483648\n',
    'a variance at the limit': levelling_line(16),
    'a variance beyond the limit': levelling_line(17),
    'a baseline between known stations': SECOND_KNOWN + PAIR + b'B 3 1 3 710 -380 900 100 20 -30 90 10 80\n' + PAIR_SOLVED,
    'a height difference between known stations': SECOND_KNOWN + PAIR + b'H 3 3 1 -900 10000\n' + PAIR_SOLVED,
    'records of both kinds between known stations': SECOND_KNOWN + PAIR + b'B 3 3 1 100 200 -300 1 0 0 1 0 1\nH 256 1 3 300 1\nH 9 3 1 -299 10000\n' + PAIR_SOLVED,
    'records between known stations struck, undone and entered over': SECOND_KNOWN + PAIR + b'H 3 1 3 900 100\nD 3\nH 4 3 1 -900 100\nU\nH 5 1 3 900 100\nR H 5 3 2 700 100\n',
    'D is 0 beside a baseline between known stations': SECOND_KNOWN + b'H 1 1 2 1000 100\nB 2 1 3 710 -380 900 100 20 -30 90 10 80\n',
    'D is 0 beside a height difference between known stations': SECOND_KNOWN + b'H 1 1 2 1000 100\nH 2 1 3 900 10000\n',
    'no record but between known stations': SECOND_KNOWN + b'B 1 1 3 710 -380 900 100 20 -30 90 10 80\nX 0\nM 0\n',
    'a baseline from a known station to a height station': HEAD + PAIR + b'B 3 1 2 300 -200 1010 100 20 -30 90 10 80\n',
    'a baseline from a height station to a known station': HEAD + PAIR + b'B 3 2 1 300 -200 -1010 100 20 -30 90 10 80\n',
    'a baseline between height stations': SECOND_HEIGHT + PAIR + b'H 3 1 3 310 100\nB 4 2 3 900 -500 -720 100 20 -30 90 10 80\n',
    'a baseline to a height station alone': HEAD + b'B 1 1 2 300 -200 1010 100 0 0 100 0 100\n',
    'B lines of 11 to 16 numbers': FREE_HEAD + b''.join(b'%sB %d 1 2 5 -5 1000 100 0 0 100 0%s\n' % (r, count, b' 100' * (count - 11)) for r in (b'', b'R ') for count in range(11, 17)),
    'antenna heights entered over none, and undone': FREE_HEAD + b'B 1 1 2 5 -5 1000 100 0 0 100 0 100\nB 1 1 2 5 -5 1000 100 0 0 100 0 100 150000 149980\nD 1\nU\nU\n',
    'none entered over antenna heights, and undone': FREE_HEAD + b'B 1 1 2 5 -5 980 100 0 0 100 0 100 150000 149980\nR B 1 1 2 5 -5 1010 100 0 0 100 0 100\nU\n',
    'antenna heights between known stations': SECOND_KNOWN + PAIR + b'B 3 1 3 710 -380 300300 100 20 -30 90 10 80 0 300000\n' + PAIR_SOLVED,
    'antenna heights on H lines': HEAD + b'H 1 1 2 1000 100 0 0\nR H 1 1 2 1000 100 0 0\nH 1 1 2 1000 100 0\n' + PAIR + PAIR_SOLVED,
    'antenna heights at their limits': FREE_HEAD + baselines(*[(1000 - a + b, a, b) for a in antennas.NEAR for b in antennas.NEAR]),
    'antenna heights far out of range': FREE_HEAD + baselines(*[(1000, *heights) for h in WORD for heights in ((h, 0), (0, h), (h, h), (h, -h))]),
    'U differences far out of range, with antenna heights': FREE_HEAD + baselines(*[(up, *heights) for up in WORD for heights in ((0, 300_000), (300_000, 0), (1, 1))]),
    'U differences about the upper limit': b'S 1 K 0 0 -500000000\nS 2 F 0 0 500000000\n' + baselines(*ABOUT_THE_LIMIT),
    'U differences about the lower limit': b'S 1 K 0 0 500000000\nS 2 F 0 0 -500000000\n' + baselines(*[(-up, b, a) for up, a, b in ABOUT_THE_LIMIT]),
    'misclosures about their limits': FREE_HEAD + baselines(*[(1000 + sign * observed, max(sign * (reduced - observed), 0), max(sign * (observed - reduced), 0))
                                                              for sign in (-1, 1) for observed in (0, 99_999, 100_000, 100_001) for reduced in (99_999, 100_000, 100_001)]),
    'a position alone': b'S 1 F 0 0 0\n' + position_lines((1, 5, -5, 10)),
    'two positions at one station': b'S 1 F 0 0 0\n' + position_lines((1, 5, -5, 10), (1, -30, 20, 900)),
    'no station held, a position and a baseline': FREE_MARKS + position_lines((2, 5010, -4990, 100970)) + FREE_BASELINE,
    'no station held, a position at each': FREE_MARKS + position_lines((1, 5, -5, 100010), (2, 5010, -4990, 100970)) + FREE_BASELINE,
    'no station held, a position at each and nothing between': FREE_MARKS + position_lines((1, 5, -5, 100010), (2, 5010, -4990, 100970)),
    'no station held, a baseline alone': FREE_MARKS + FREE_BASELINE + SIX_ZEROS,
    'no station held, a baseline alone, no solution given': FREE_MARKS + FREE_BASELINE,
    'no station held, a position at the first alone': FREE_MARKS + position_lines((1, 5, -5, 100010)) + SIX_ZEROS,
    'no station held, a position and a height difference': FREE_MARKS + position_lines((1, 5, -5, 100010)) + b'H 2 1 2 1000 100\n' + SIX_ZEROS,
    'no station held, the position struck': FREE_MARKS + position_lines((1, 5, -5, 100010)) + FREE_BASELINE + b'D 1\n' + SIX_ZEROS,
    'no station held, the position struck, and that undone': FREE_MARKS + position_lines((1, 5, -5, 100010)) + FREE_BASELINE + b'D 1\nU\n',
    'no station held, the position undone': FREE_MARKS + FREE_BASELINE + position_lines((1, 5, -5, 100010)) + b'U\n' + SIX_ZEROS,
    'E and N by a position, U also by levelling': FREE_HEAD + b'H 1 1 2 1000 100\n' + position_lines((2, 5, -5, 101010), first=2),
    'E and N by a baseline to a station with a position': FREE_HEAD + b'S 3 F 0 0 0\nH 1 1 2 1000 100\nB 2 2 3 0 0 -101000 100 0 0 100 0 100\n' + position_lines((3, 5, -5, 10), first=3),
    'positions at stations of each kind': SECOND_HEIGHT + b'S 4 F 0 0 0\n' + position_lines((1, 9, 9, 100009), (2, 300, -200, 101010), (3, 690, -390, 100290), (4, 1, 2, 3)),
    'a position at a known station': SECOND_KNOWN + PAIR + position_lines((3, 710, -380, 100900), first=3) + PAIR_SOLVED,
    'a position at a known station, as far off as may be': SECOND_KNOWN + PAIR + position_lines((3, 100_700, -100_400, 200_300), first=3) + PAIR_SOLVED,
    'a position at a known station alone': SECOND_KNOWN + position_lines((3, 710, -380, 100900)) + b'X 0\nM 0\n',
    'D is 0 beside a position at a known station': SECOND_KNOWN + b'H 1 1 2 1000 100\n' + position_lines((3, 710, -380, 100900), first=2),
    'a position at a height station': HEAD + position_lines((2, 300, -200, 101010)),
    'a position at a height station beside height differences': HEAD + PAIR + position_lines((2, 300, -200, 101010), first=3),
    'a position at the known end of a baseline': FREE_HEAD + b'B 1 1 2 5 -5 1000 100 0 0 100 0 100\n' + position_lines((1, 700, 0, 100000), first=2),
    'P lines of 10 to 14 numbers': FREE_HEAD + b''.join(b'%sP %d 2 5 -5 101000 100 0 0 100 0%s\n' % (r, count, b' 100' * (count - 10)) for r in (b'', b'R ') for count in range(10, 15)),
    'P in other words': FREE_HEAD + b''.join(b'%s 1 2 5 -5 101000 100 0 0 100 0 100\n' % word for word in (b'p', b'RP', b'r P', b'R  P', b'R p', b'P R', b'R R P', b'R P', b'PP')),
    'P and nothing else': FREE_HEAD + b'P\nR P\nP \nR P 1\n' + position_lines((2, 5, -5, 101010)),
    'P opens': FREE_MARKS + position_lines((1, 5, -5, 100010)) + b'S 3 F 0 0 0\n' + position_lines((2, 5010, -4990, 100970), first=2),
    'R P opens': FREE_MARKS + b'R ' + position_lines((1, 5, -5, 100010)) + b'S 3 F 0 0 0\nR ' + position_lines((2, 5010, -4990, 100970), first=2),
    'P first of all': position_lines((1, 5, -5, 100010)) + FREE_MARKS,
    'positions at stations that are not': FREE_HEAD + position_lines(*((s, 5, -5, 101000) for s in (-1, 0, 1, 2, 3, 32, 33, *WORD))),
    'positions at places that are not': FREE_HEAD + b''.join(position_lines((2, 5, -5, 101000), first=place) for place in (-1, 0, 1, 256, 257, *WORD)),
    'coordinates of positions about their limits': b'S 1 F %d %d %d\n' % AT_THE_ENDS + position_lines(*((1, *row) for row in each_in_turn(AT_THE_ENDS, END - 1, END, END + 1))),
    'misclosures of positions about their limits': b'S 1 F 0 0 0\n' + position_lines(*((1, *row) for row in each_in_turn((1, 1, 1), 99_999, 100_000, 100_001, -99_999, -100_000, -100_001))),
    'weights of positions about their limits': b'S 1 F 0 0 0\n' + b''.join(position_lines((1, 5, -5, 10), weights=w, first=k) for k, w in enumerate(WEIGHTS, 1)),
    'coordinates of positions far out of range': b'S 1 F 0 0 0\n' + position_lines(*((1, *row) for row in each_in_turn((1, 1, 1), 10 ** 9, -10 ** 9, *WORD))),
    'positions with several mistakes': b'S 1 F 0 0 0\n' + b''.join(position_lines((station, east, 0, 0), weights=w, first=place) for place in (0, 1) for station in (1, 2)
                                                                  for east in (0, 100_001, END + 1) for w in ((1, 0, 0, 1, 0, 1), (1, 1, 0, 1, 0, 1), (0, 0, 0, 1, 0, 1))),
    'a position entered over a height difference, and undone': HEAD + PAIR + position_lines((2, 300, -200, 101010), first=2) + b'U\n' + PAIR_SOLVED,
    'a height difference entered over a position': HEAD + position_lines((2, 300, -200, 101010), (2, 0, 0, 101000)) + PAIR + PAIR_SOLVED,
    'a height difference entered over a position, and undone': HEAD + position_lines((2, 300, -200, 101010)) + b'R H 1 1 2 1000 100\nU\n',
    'a position entered over a baseline, and undone': FREE_HEAD + b'B 1 1 2 5 -5 980 100 0 0 100 0 100 150000 149980\nR ' + position_lines((2, 9, 9, 101009)) + b'U\n',
    'a baseline entered over a position, and undone': FREE_HEAD + position_lines((2, 9, 9, 101009)) + b'B 1 1 2 5 -5 980 100 0 0 100 0 100 150000 149980\nU\n',
    'a position entered over another, over an equal one, and undone': FREE_HEAD + position_lines((2, 9, 9, 101009)) + position_lines((2, 5, 5, 101005)) * 2 + b'U\nU\n',
    'a refused position leaves the one at its place': FREE_HEAD + position_lines((2, 9, 9, 101009)) + position_lines((2, 9, 9, 201001)) + position_lines((3, 9, 9, 101009)),
    '256 positions': b''.join(b'S %d F 0 0 0\n' % k for k in range(1, 17)) + position_lines(*((1 + k % 16, k, -k, 7 * k % 256) for k in range(256))),
    'a position of 50,000 bytes, and one of 50,001': FREE_HEAD + b''.join(b'P 1 2 %s5 -5 101000 100 0 0 100 0 100\n' % (b'0' * (length - 35)) for length in (LINE, LINE + 1)),
    'a closed line of 50,000 bytes': HEAD + b'H 1 1 2 ' + b'0' * (LINE - 16) + b'1000 100\nH 2 1 2 1100 100\nX 50\nM 5368709\n',
    'a closed line of 50,001 bytes': HEAD + b'H 1 1 2 ' + b'0' * (LINE - 15) + b'1000 100\nH 2 1 2 1100 100\nX 100\nM 10737418\n',
    'a last line of 50,001 bytes': HEAD + PAIR + b'X ' + b'0' * (LINE - 1),
    '10 MB in one line': HEAD + b'H 1 1 2 ' + b'0' * 10_000_000 + b' 100\n' + PAIR + b'X 50\nM 5368709\n',
    '10 MB without a line end': HEAD + PAIR + b'X 50\nM 5368709\n' + b'7' * 10_000_000,
}

if __name__ == '__main__':
    sys.stdout.buffer.write(made(int(sys.argv[1]))[1])
