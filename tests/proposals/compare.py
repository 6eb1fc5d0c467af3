"""Proposals of the engine against an exact solver, on random networks from fixed seeds.

    compare.py LIBRARY COUNT

LIBRARY is a shared object with the C calls of include/dombrelat.h. For each network: wherever the exact answer and 2^30 times the exact inverse, rounded to nearest, are
accepted by the check (the reference implementation's), the engine must propose; whatever it proposes must be accepted by both checks, each correction within one unit of
the exact one, and each entry of M within document 01's column promise. Fails too where fewer networks are met than LEAST asks, so COUNT is 240 or more.
Prints what it saw, and 'N passed, M failed' last."""
import os
import random
import sys

sys.path[:0] = [os.path.join(os.path.dirname(os.path.abspath(__file__)), '..', folder) for folder in ('reference', 'host')]
from coverage import Coverage
from expected import NO_PROPOSAL, entering, packed, words_in
from layout import BYTES
from library import Buffer, Library
import kinds
import solve
import survey

ACCEPTED = {'chain': 14, 'chain from a position': 15, 'full': 6, 'full of marks': 6, 'marks': 45, 'mixed': 100}
# How often the 240 networks of the gate must at least come, by their kind; and those that the engine proposes for, by the stations that have positions and by what these tie.
LEAST = {
    'networks': {'chain': 18, 'chain from a position': 18, 'full': 6, 'full of marks': 6, 'marks': 60, 'mixed': 132},
    'the rounded exact pair accepted': ACCEPTED,
    'proposed': ACCEPTED,
    'proposed, with positions': {
        'position known': 52, 'position free': 110, 'position height': 65, 'a position at every station': 25, 'no station held': 18,
        'tied in E by positions alone': 20, 'tied in N by positions alone': 20, 'tied in U by positions alone': 65},
}


def coordinates(rng, far):
    return [rng.randint(-far, far) for _ in range(3)]


def seen(rng, rows, *numbers):
    """Values near those that the provisional coordinates give, of one station or from one to another."""
    *start, end = (rows[number - 1] for number in numbers)
    return tuple(end[c] - sum(row[c] for row in start) + rng.randint(-2000, 2000) for c in (1, 2, 3))


def correlated(rng, scale):
    """A weight matrix by the rules; strong correlations bring it near the factor of 16."""
    while True:
        d = [rng.randint(1, scale) for _ in range(3)]
        off = [int(rng.uniform(-0.97, 0.97) * (d[a] * d[b]) ** 0.5) for a, b in ((0, 1), (0, 2), (1, 2))]
        weights = (d[0], off[0], off[1], d[1], off[2], d[2])
        if survey.Position(1, (0, 0, 0), weights).matrix_fits():
            return weights


def baseline(rng, rows, start, end, scale):
    return survey.Baseline(start, end, seen(rng, rows, start, end), correlated(rng, scale))


def position(rng, rows, station, scale):
    return survey.Position(station, seen(rng, rows, station), correlated(rng, scale))


def record(rng, rows, scale):
    """One of any kind."""
    start, end = rng.sample(range(1, len(rows) + 1), 2)
    kind = rng.random()
    if kind < 0.15:
        return position(rng, rows, end, scale)
    return survey.Level(start, end, seen(rng, rows, start, end)[2], rng.randint(1, scale)) if kind < 0.45 else baseline(rng, rows, start, end, scale)


def chain(rng, length, weight, known):
    """A levelling chain from one mark, known or with a position: weak at its end."""
    rows = [(survey.KNOWN if known else survey.HEIGHT, 0, 0, 0)] + [(survey.HEIGHT, 0, 0, rng.randint(-10 ** 6, 10 ** 6)) for _ in range(min(length, 31))]
    joined = [(k, k + 1) for k in range(1, len(rows))]
    joined += [rng.sample(range(1, len(rows) + 1), 2) for _ in range(len(rows), length + 1)]
    records = [survey.Level(a, b, rows[b - 1][3] - rows[a - 1][3] + rng.randint(-3000, 3000), weight) for a, b in joined]
    return rows, records if known else [survey.Position(1, seen(rng, rows, 1), (weight, 0, 0, weight, 0, weight)), *records]


def mixed(rng, stations, count, scale):
    """Stations of all kinds, and records of all kinds at random."""
    while True:
        rows = [(kind, *coordinates(rng, 10 ** 7)) for kind in (survey.KNOWN, *rng.choices((survey.KNOWN, survey.FREE, survey.FREE, survey.FREE, survey.HEIGHT), k=stations - 1))]
        if survey.open_number(rows) == 0:
            return rows, [record(rng, rows, scale) for _ in range(count)]


def marks(rng, stations, count, scale):
    """No station known; baselines join them all, and positions are at none of them, at one, at some or at each."""
    rows = [(kind, *coordinates(rng, 10 ** 7)) for kind in rng.choices((survey.FREE, survey.FREE, survey.FREE, survey.HEIGHT), k=stations)]
    placed = rng.sample(range(1, stations + 1), rng.choice((0, 1, 1, rng.randint(1, stations), stations)))
    records = [baseline(rng, rows, rng.randrange(1, k), k, scale) for k in range(2, stations + 1)] + [position(rng, rows, k, scale) for k in placed]
    between = [record(rng, rows, scale) for _ in range(count)]
    return rows, records + [r for r in between if placed or not isinstance(r, survey.Position)]


def full(rng):
    """32 stations, 48 unknowns, 256 records."""
    rows = [(survey.KNOWN, 0, 0, 0)] * 8 + [(survey.FREE, *coordinates(rng, 10 ** 7)) for _ in range(12)] + [(survey.HEIGHT, 0, 0, rng.randint(-10 ** 6, 10 ** 6)) for _ in range(12)]
    return rows, [record(rng, rows, 10_000) for _ in range(256)]


def full_of_marks(rng):
    """16 stations, none of them held, 48 unknowns, 256 records."""
    rows = [(survey.FREE, *coordinates(rng, 10 ** 7)) for _ in range(16)]
    return rows, [record(rng, rows, 10_000) for _ in range(256)]


def network(seed):
    """(kind, rows of stations, records by place)"""
    rng = random.Random(seed)
    scale, stations = rng.choice((5, 100, 10_000)), rng.randint(2, 9)
    count = rng.randint(stations - 1, 4 * stations)
    turn, again = seed % 20, seed // 20 % 2
    if turn == 0:
        kind, (rows, records) = ('full of marks', full_of_marks(rng)) if again else ('full', full(rng))
    elif turn <= 3:
        kind = 'chain from a position' if again else 'chain'
        rows, records = chain(rng, rng.choice((5, 10, 20, 31, 40)), rng.choice((1, 1, 2, 100)), not again)
    else:
        kind, (rows, records) = ('marks', marks(rng, stations, count, scale)) if turn <= 8 else ('mixed', mixed(rng, stations, count, scale))
    return kind, rows, dict(enumerate(records, 1))


def fill(library, net, rows, records):
    """(a book of the records that the rules allow, those records); a string where a call is answered wrongly"""
    book = Buffer(bytes(BYTES))
    if library.call('open', Buffer(packed([v for row in rows for v in row])), book) != 0:
        return 'the book did not open'
    held = {}
    for place, r in records.items():
        number = survey.record_number(net, r)
        name, numbers = entering(place, r)
        got = library.call(name, book, *numbers)
        if got != number:
            return 'an edit was answered %d, not %d' % (got, number)
        if number == 0:
            held[place] = r
    return book, held


def compare(library, net, rows, records):
    """(the records that were entered, whether the rounded pair is accepted, whether the engine proposed, what is wrong or None)"""
    filled = fill(library, net, rows, records)
    if isinstance(filled, str):
        return {}, False, False, filled
    book, held = filled
    n = net.n
    exact = solve.exact(*survey.normals(net, held))
    accepted = exact is not None and survey.check(net, held, *solve.round_off(*exact)) == (0,)
    before = packed([7] * n), packed([7] * (n * n))
    x, m = map(Buffer, before)
    answer = library.call('propose', book, x, m)
    if answer != 0:
        if answer != NO_PROPOSAL or (x.get(), m.get()) != before:
            return held, accepted, False, 'answered %d, or x or M was written' % answer
        return held, accepted, False, 'no proposal, though the rounded exact pair is accepted' if accepted else None
    xs, ms = words_in(x.get()), words_in(m.get())
    if survey.check(net, held, xs, ms) != (0,) or library.call('check', book, x, m) != 0:
        return held, accepted, True, 'a proposal that a check refuses'
    return held, accepted, True, promises(n, exact, xs, ms)


def promises(n, exact, xs, ms):
    """What document 01 says follows from acceptance: None where it holds."""
    d, y, z = exact
    if any(abs(y[i] - d * xs[i]) > d for i in range(n)):
        return 'a correction beyond one unit'
    for j in range(n):
        largest = max(abs(z[k][j]) for k in range(n))
        if any(16 * abs(d * ms[i * n + j] - survey.S * z[i][j]) > survey.S * largest for i in range(n)):
            return 'a variance beyond the column promise'
    return None


def main():
    library, count = Library(sys.argv[1]), int(sys.argv[2])
    coverage = Coverage()
    failed = []
    for seed in range(count):
        kind, rows, records = network(seed)
        net = survey.Network(survey.Station(*row) for row in rows)
        held, accepted, proposed, wrong = compare(library, net, rows, records)
        coverage.note('networks', kind)
        coverage.note('the rounded exact pair accepted', kind, accepted)
        coverage.note('proposed', kind, proposed)
        for what in kinds.of_ties(net, held) | {kinds.of(net, r) for r in held.values() if isinstance(r, survey.Position)}:
            coverage.note('proposed, with positions', what, proposed)
        if wrong:
            failed.append('seed %d (%s): %s' % (seed, kind, wrong))
    passed = count - len(failed)
    failed += coverage.shortfalls(LEAST)
    print('\n'.join(failed + [coverage.text()]))
    print('%d passed, %d failed' % (passed, len(failed)))
    sys.exit(failed != [])


main()
