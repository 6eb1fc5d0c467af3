"""Check distances on the static library, from a fixed seed: every answer, in both directions, against the independent implementation in tests/reference, and against the words of
the sheet that the library writes for the same pair. Networks of three kinds: random ones; such whose lengths are made so that D² is a square, one less or one more; and 32 stations
at the corners of the range of coordinates. On pairs that the check accepts and on such as it refuses; around (s − t)² and (s + t)², on both sides of every limit of 17, with
extreme numbers. Fails too where it meets less than coverage.py asks. Prints 'N passed, M failed' last.

    python3 tests/host/distances.py LIBRARY.so
"""
from dataclasses import astuple, fields, replace
import itertools
import math
import sys

from arguments import LENGTHS
from comparison import Comparison
from coverage import DISTANCES
from expected import packed, result_of, words_in
from layout import Book
from library import Buffer, Header, Library
import survey

RANDOM_NETWORKS, SQUARE_NETWORKS, CORNER_NETWORKS = 34, 24, 6
AROUND, ANYWHERE = 12, 150                 # of each network's distances: those whose limits are looked for, each ten times, and those anywhere
CORNER = 500_000_000                       # the largest coordinate
FIELDS = [f.name for f in fields(survey.CheckDistance)]
LIMITS = {'distance': (1, survey.MOST_DISTANCE), 'instrument_height': (0, survey.MOST_HEIGHT_ABOVE_MARK), 'target_height': (0, survey.MOST_HEIGHT_ABOVE_MARK), 'tolerance': (0, survey.MOST_TOLERANCE)}
HEADER = {'BAD_ENDS': 3, 'BAD_DISTANCE': 17, 'DISAGREES': survey.DISAGREES,
          'DISTANCE_MAX': survey.MOST_DISTANCE, 'HEIGHT_ABOVE_MARK_MAX': survey.MOST_HEIGHT_ABOVE_MARK, 'TOLERANCE_MAX': survey.MOST_TOLERANCE}      # what it must say
BESIDE = {-1: 'one below', 0: 'at', 1: 'one above'}
SIZES = {'to 10^6': 10 ** 6, 'to 10^12': 10 ** 12, 'to 10^18': 10 ** 18, 'to 2.9·10^18': 29 * 10 ** 17, 'to 3·10^18': 3 * 10 ** 18, 'above': 2 ** 63}      # of D²


def exchanged(d):
    """The same distance from the other end."""
    return survey.CheckDistance(d.end, d.start, d.distance, d.target_height, d.instrument_height, d.tolerance)


def extremes(v):
    """Numbers far from v; the low bits of some are those of v."""
    return [-2 ** 63, -2 ** 63 + 1, 2 ** 63 - 1, -2 ** 62, 2 ** 62, v + 2 ** 32, v - 2 ** 32, v - 2 ** 63]


class Pair:
    """A book and a pair as they are lent, what the check answers to them, and of an accepted pair the sheet that the library writes."""

    def __init__(self, run, model, x, m):
        self.model = model
        self.lent = [Buffer(v) for v in (model.bytes(), x, m)]
        self.words = [words_in(v) or [] for v in (x, m)]
        self.checked = survey.check(model.net, model.records, *self.words)
        sheet = Buffer(bytes(8 * survey.sheet_room(model.net, model.records)))
        run.same('check_sheet', run.lib.call('check_sheet', *self.lent, sheet), result_of(self.checked))
        self.sheet = words_in(sheet.get()) if self.checked == (0,) else None

    def station(self, number):
        """Its coordinates on the sheet."""
        return self.sheet[7 * number - 4:7 * number - 1]

    def squared(self, d):
        return survey.squared_distance(self.station(d.start), self.station(d.end), d)


class Distances(Comparison):
    # ---- networks
    def random_network(self):
        low, high = self.rng.choice([(4, 9), (4, 9), (10, 24), (25, 48)])
        rows, records = self.arguments.tied_network(low, high)
        model = Book(rows)
        for place, r in enumerate(records, 1):
            model.put(place, r)
        return model

    def adjusted_network(self, wanted):
        """A network whose exact corrections put station k at the coordinates of wanted[k - 1] = (kind, coordinates), each by one record from station 1, which is known, or by a
        position."""
        r = self.rng
        rows, start = [], wanted[0][1]
        for kind, at in wanted:
            moves = [r.choice([-1, 1]) * r.choice([1, 50, 20_000, 100_000]) if survey.Station(kind, *at).unknown(c) else 0 for c in range(3)]
            rows.append((kind, *(v + d if abs(v - d) > CORNER else v - d for v, d in zip(at, moves))))
        model = Book(rows)
        for number, (kind, at) in enumerate(wanted, 1):
            observed = tuple(b - a for a, b in zip(start, at))
            if kind != survey.KNOWN and r.random() < 0.3:
                model.put(number, survey.Position(number, tuple(at), self.weights()))
            elif kind == survey.FREE:
                model.put(number, survey.Baseline(1, number, observed, self.weights()))
            elif kind == survey.HEIGHT:
                model.put(number, survey.Level(1, number, observed[2], r.randint(50, 9_000)))
        return model

    def weights(self):
        return 100, self.rng.randint(-9, 9), 0, 120, self.rng.randint(-9, 9), 90

    def near_square(self, off, most):
        """(a, b, c, root) with a² + b² + c² = root² + off, a, b, c at most `most`: a reflection keeps a² + b² + c² − root², and in the end the numbers grow."""
        r = self.rng
        *sides, root = {-1: (0, 0, 0, 1), 0: (1, 0, 0, 1), 1: (1, 1, 0, 1)}[off]
        while True:
            signed = [v * r.choice([-1, -1, 1]) for v in sides]
            step = sum(signed) - root
            grown = [abs(v - step) for v in signed]
            if max(grown) > most:
                return (*r.sample(sides, 3), root)
            sides, root = grown, abs(root - step)

    def square_network(self):
        """(network, distances at their limits): station 1 is at a corner, and D² from it to each other station, with certain heights, is a square, one less or one more."""
        r = self.rng
        toward = [r.choice([-1, 1]) for _ in range(3)]
        corner = [-CORNER * t for t in toward]
        wanted, distances = [(survey.KNOWN, corner)], []
        for _ in range(16):
            heights = [r.choice([0, survey.MOST_HEIGHT_ABOVE_MARK, r.randint(0, survey.MOST_HEIGHT_ABOVE_MARK)]) for _ in range(2)]
            *sides, root = self.near_square(r.choice([-1, 0, 1]), 2 * CORNER // 10 ** r.choice([0, 0, 1, 2, 3, 4, 5, 6, 7]))
            at = [v + side * t for v, side, t in zip(corner, sides, toward)]
            at[2] -= heights[1] - heights[0]
            if abs(at[2]) <= CORNER and root > 1:
                wanted.append((r.choice([survey.KNOWN, survey.FREE, survey.HEIGHT]), at))
                distances += self.at_limits(survey.CheckDistance(1, len(wanted), 0, *heights, 0), root)
        wanted.append((survey.FREE, [v + 1_000 * t for v, t in zip(corner, toward)]))      # so that there is an unknown
        return self.adjusted_network(wanted), distances

    def at_limits(self, d, root):
        """The distance with s − t and with s + t the root."""
        most = min(survey.MOST_TOLERANCE, (root - 1) // 2)
        for tolerance in {0, most, self.rng.randint(0, most), self.rng.randint(0, min(most, 100))}:
            yield replace(d, distance=root + tolerance, tolerance=tolerance)
            yield replace(d, distance=root - tolerance, tolerance=tolerance)

    def corner_network(self):
        """32 stations at the eight corners of the range of coordinates, four at each; the records put most of the free ones 1 m further out."""
        r = self.rng
        corners = list(itertools.product((-CORNER, CORNER), repeat=3))
        model = Book([(kind, *at) for kind in (survey.KNOWN, survey.FREE, survey.FREE, survey.KNOWN) for at in corners])
        for number in range(9, 25):
            out = tuple(v // 5_000 if r.random() < 0.8 else r.randint(-1_000, 1_000) for v in model.rows[number - 1][1:])
            model.put(number, survey.Baseline((number - 1) % 8 + 1, number, out, self.weights()))
        return model

    # ---- pairs that the check refuses
    def refused_pairs(self, model, x, m):
        """(book, x, M) with a wrong length, a station without records, a correction or an entry of M beyond its limit, an M or an x that is none."""
        r = self.rng

        def changed(words, change):
            k = r.randrange(len(words))
            return words[:k] + [change(words[k])] + words[k + 1:]
        lent = [packed(x), packed(m)]
        for k in (0, 1):
            lengthen = LENGTHS[r.choice([name for name in LENGTHS if name != 'as asked'])]
            yield model, *(lengthen(v) if i == k else v for i, v in enumerate(lent))
        loose = Book(model.rows)
        left_out = r.choice(sorted(number for number, _ in model.net.index))
        for place, record in model.records.items():
            if left_out not in (s for s, _ in record.ends):
                loose.put(place, record)
        yield loose, *lent
        yield model, packed(changed(x, lambda v: r.choice([100_001, -100_001, 2 ** 62, -2 ** 63]))), lent[1]
        yield model, lent[0], packed(changed(m, lambda v: r.choice([2 ** 34 + 1, -2 ** 34 - 1, -2 ** 63])))
        yield model, lent[0], packed(changed(m, lambda v: v + r.choice([-1, 1]) * 2 ** 28))
        yield model, packed(changed(x, lambda v: v - 90_000 if v > 0 else v + 90_000)), lent[1]
        yield model, packed(changed(x, lambda v: v - 3 if v > 0 else v + 3)), lent[1]

    # ---- distances
    def in_range(self, pair):
        """A distance within the limits of 3 and 17; with an accepted pair most are near D."""
        r = self.rng
        start, end = r.sample(range(1, len(pair.model.rows) + 1), 2)
        heights = [r.choice([0, survey.MOST_HEIGHT_ABOVE_MARK, r.randint(0, survey.MOST_HEIGHT_ABOVE_MARK), r.randint(0, survey.MOST_HEIGHT_ABOVE_MARK)]) for _ in range(2)]
        tolerance = r.choice([0, 1, r.randint(0, 1_000), r.randint(0, survey.MOST_TOLERANCE), survey.MOST_TOLERANCE])
        d = survey.CheckDistance(start, end, r.randint(tolerance + 1, survey.MOST_DISTANCE), *heights, tolerance)
        if pair.sheet and r.random() < 0.8:
            d = replace(d, distance=math.isqrt(pair.squared(d)) + r.randint(-2 * tolerance, 2 * tolerance))
        return d if survey.in_range(d) else self.in_range(pair)

    def around(self, pair):
        """Where D² lies between two squares: the last s and t that agree and the first that do not, at both ends."""
        d = self.in_range(pair)
        root = math.isqrt(pair.squared(d))
        for distance in (root + d.tolerance, root + 1 - d.tolerance):
            for s, t in ((0, 0), (-1, 0), (1, 0), (0, -1), (0, 1)):
                yield replace(d, distance=distance + s, tolerance=d.tolerance + t)

    def beside_limits(self, d):
        """The distance with one value at a limit of 17 or one beyond it, the others within theirs."""
        d = replace(d, distance=max(d.distance, survey.MOST_TOLERANCE + 2))
        for name, (low, high) in LIMITS.items():
            for value in (low - 1, low, high, high + 1):
                yield replace(d, **{'tolerance': 0 if name == 'distance' else d.tolerance, name: value})
        for s in (1, 2, survey.MOST_TOLERANCE, self.rng.randint(3, survey.MOST_TOLERANCE)):
            yield replace(d, distance=s, tolerance=s - 1)
            yield replace(d, distance=s, tolerance=s)

    def with_extremes(self, d):
        """The distance with an extreme number in each value in turn, and in all of them but the ends."""
        far = {name: self.rng.choice(extremes(getattr(d, name))) for name in FIELDS}
        for name, value in far.items():
            self.coverage.note('extreme numbers', name)
            yield replace(d, **{name: value})
        self.coverage.note('extreme numbers', 'all but the ends')
        yield replace(d, **{name: far[name] for name in LIMITS})

    def bad_ends(self, pair, d):
        r = self.rng
        count = len(pair.model.rows)
        if r.random() < 0.3:
            return replace(d, end=d.start)
        return replace(d, **{r.choice(['start', 'end']): r.choice([0, -1, count + 1, count + 2, 33, *extremes(1)])})

    def bad_range(self, d):
        r = self.rng
        name = r.choice([*LIMITS, 'not below'])
        if name == 'not below':
            return replace(d, distance=r.randint(1, d.tolerance + 1), tolerance=max(1, d.tolerance))
        low, high = LIMITS[name]
        return replace(d, **{name: r.choice([low - 1, high + 1, r.randint(-high, low - 1), r.randint(high + 1, 2 * high), *extremes(getattr(d, name))])})

    # ---- runs
    def ask(self, pair, d):
        """A distance in both directions against the independent implementation and against the sheet."""
        answer = survey.check_distance(pair.model.net, pair.model.records, *pair.words, d, pair.checked)
        for given in (d, exchanged(d)):
            got = self.call('check_distance', *pair.lent, *astuple(given))
            self.compare('check_distance of %s' % (given,), got, result_of(answer), got[1])
            if answer in ((0,), (survey.DISAGREES,)):
                self.same('%s by the sheet' % (given,), got[0], 0 if survey.agrees(pair.squared(given), given) else survey.DISAGREES)
        self.note(pair, d, answer)

    def note(self, pair, d, answer):
        note = self.coverage.note
        ends, within = survey.ends_fit(pair.model.net, d), survey.in_range(d)
        applies = [str(n) for n, is_ in ((3, not ends), (17, not within), (pair.checked[0], pair.checked[0] > 0)) if is_]
        note('distances', 'asked')
        if applies:
            note('distances', 'refused')
            note('what refuses', ' '.join(applies))
        if ends and pair.sheet:
            self.note_values(d)
        if not applies:
            note('answers', 'agrees' if answer == (0,) else 'does not')
            self.note_square(pair.squared(d), d)

    def note_values(self, d):
        """Values at a limit of 17 or one beyond it."""
        for name, (low, high) in LIMITS.items():
            value = getattr(d, name)
            if value in (low - 1, low, high, high + 1):
                self.coverage.note('limits of 17', '%s %d' % (name, value))
        if d.distance - d.tolerance in (0, 1):
            self.coverage.note('limits of 17', 'tolerance s' if d.distance == d.tolerance else 'tolerance s - 1')

    def note_square(self, square, d):
        self.coverage.note('size of D²', next(name for name, most in SIZES.items() if square <= most))
        for name, limit in (('(s - t)²', d.distance - d.tolerance), ('(s + t)²', d.distance + d.tolerance)):
            if square - limit ** 2 in BESIDE and d.tolerance:
                self.coverage.note('D² beside ' + name, BESIDE[square - limit ** 2])

    def network(self, model, distances=()):
        """The distances given and random ones with the exact pair of a network; such as are refused, with it and with pairs that the check refuses."""
        self.note_ties('networks by their ties', model)
        x, m = self.arguments.exact(model)
        exact = Pair(self, model, packed(x), packed(m))
        self.answered(exact, distances)
        for pair in [exact, *(Pair(self, *lent) for lent in self.refused_pairs(model, x, m))]:
            self.refused(pair)

    def answered(self, pair, distances):
        """The distances given, random ones and such as are near their limits."""
        asked = [*distances, *self.beside_limits(self.in_range(pair))]
        for _ in range(4):
            asked += self.with_extremes(self.in_range(pair))
        for _ in range(AROUND if pair.sheet else 0):
            asked += self.around(pair)
        for d in asked + [self.in_range(pair) for _ in range(ANYWHERE)]:
            self.ask(pair, d)

    def refused(self, pair):
        """Distances with neither, either and both of 3 and 17."""
        for _ in range(5):
            d = self.in_range(pair)
            for given in (d, self.bad_ends(pair, d), self.bad_range(d), self.bad_ends(pair, self.bad_range(d))):
                self.ask(pair, given)

    def run(self):
        constants = Header().constants
        for name, want in HEADER.items():
            self.same('%s in the header' % name, constants.get(name), want)
        for _ in range(RANDOM_NETWORKS):
            self.network(self.random_network())
        for _ in range(SQUARE_NETWORKS):
            self.network(*self.square_network())
        for _ in range(CORNER_NETWORKS):
            self.network(self.corner_network())


if __name__ == '__main__':
    Distances(Library(sys.argv[1]), 20261116).report(DISTANCES)
