"""An independent implementation of document 01, as requests 1 (check distances), 2 (records that are a check only), 3 (enter), 4 (antenna heights) and 5 (positions) of document 02
amend it, for the tests: stations, records, the ledger, the check, the sheet. Written from the documents alone, in whole numbers, with no thought for speed. Numbers of stations, places
and unknowns count from 1 as in the document; lists from 0."""
from dataclasses import dataclass
from itertools import permutations

KNOWN, FREE, HEIGHT = 1, 2, 3          # kinds of station, as words
S = 2 ** 30
LIMIT = 2 ** 62
CHI_SQUARE = [  # 95% limits in thousandths, D = 1 to 30
    (1, 5024), (51, 7378), (216, 9348), (484, 11143), (831, 12833), (1237, 14449), (1690, 16013), (2180, 17535), (2700, 19023), (3247, 20483),
    (3816, 21920), (4404, 23337), (5009, 24736), (5629, 26119), (6262, 27488), (6908, 28845), (7564, 30191), (8231, 31526), (8907, 32852),
    (9591, 34170), (10283, 35479), (10982, 36781), (11689, 38076), (12401, 39364), (13120, 40646), (13844, 41923), (14573, 43195),
    (15308, 44461), (16047, 45722), (16791, 46979)]
PASS, FAIL, LOOSE, LOW, HIGH, NONE = range(6)
MOST_COORDINATE = 500_000_000          # of a station, and of a position
MOST_DIFFERENCE, MOST_MISCLOSURE = 1_000_000_000, 100_000      # of a record
MOST_WEIGHT = 10_000
MOST_HEIGHT_ABOVE_MARK = 300_000       # of an antenna, of the instrument and the target of a check distance
MOST_DISTANCE, MOST_TOLERANCE = 1_800_000_000, 100_000         # of a check distance
DISAGREES = -2                         # the answer to a check distance that does not agree


@dataclass(frozen=True)
class Station:
    kind: int
    east: int
    north: int
    up: int

    def coordinate(self, c):
        return (self.east, self.north, self.up)[c]

    def unknown(self, c):
        return self.kind == FREE or (self.kind == HEIGHT and c == 2)


def within(limit, values):
    return all(abs(v) <= limit for v in values)


# Every record has: `ends`, its stations with their coefficients in A; `components`, those it acts in; `observed`, and `reduced`, which its misclosure is taken from; `weight` and
# `variance`; `values_in_range`, which refusal 4 asks for, and `matrix_fits`, which 5 does.
class FromTo:
    """What has a from and a to, `start` and `end`: differences are to minus from."""

    @property
    def ends(self):
        return (self.start, -1), (self.end, 1)


class Weighted:
    """What acts in E, N and U with a 3×3 matrix of weights: `weights` are EE, EN, EU, NN, NU, UU."""
    components = (0, 1, 2)

    def weight(self, a, b):
        ee, en, eu, nn, nu, uu = self.weights
        return ((ee, en, eu), (en, nn, nu), (eu, nu, uu))[a][b]

    def determinant(self):
        ee, en, eu, nn, nu, uu = self.weights
        return ee * nn * uu + 2 * en * nu * eu - ee * nu * nu - nn * eu * eu - uu * en * en

    def adjugate(self, a):
        ee, en, eu, nn, nu, uu = self.weights
        return (nn * uu - nu * nu, ee * uu - eu * eu, ee * nn - en * en)[a]

    def variance(self, a):
        """floor(S·adj/det)"""
        return S * self.adjugate(a) // self.determinant()

    def weights_in_range(self):
        ee, en, eu, nn, nu, uu = self.weights
        return all(1 <= w <= MOST_WEIGHT for w in (ee, nn, uu)) and within(MOST_WEIGHT, (en, eu, nu))

    def matrix_fits(self):
        """The leading minors are positive, and no diagonal entry of the adjugate is above 16 times the determinant."""
        ee, en, _, nn, _, _ = self.weights
        det = self.determinant()
        return ee > 0 and ee * nn - en * en > 0 and det > 0 and all(self.adjugate(a) <= 16 * det for a in self.components)


@dataclass(frozen=True)
class Baseline(FromTo, Weighted):
    start: int
    end: int
    observed: tuple           # E, N, U, from antenna to antenna
    weights: tuple
    heights: tuple = (0, 0)   # of the antennas above their marks, from first

    @property
    def reduced(self):
        """The differences from mark to mark: that in U is the observed one plus the from-height minus the to-height."""
        east, north, up = self.observed
        return east, north, up + self.heights[0] - self.heights[1]

    def values_in_range(self):
        heights_fit = all(0 <= h <= MOST_HEIGHT_ABOVE_MARK for h in self.heights)
        return heights_fit and within(MOST_DIFFERENCE, (*self.observed, *self.reduced)) and self.weights_in_range()


@dataclass(frozen=True)
class Level(FromTo):
    start: int
    end: int
    up: int
    single: int

    components = (2,)

    @property
    def observed(self):
        return (0, 0, self.up)

    @property
    def reduced(self):
        return self.observed

    def weight(self, a, b):
        return self.single if a == b == 2 else 0

    def variance(self, a):
        return S // self.single

    def values_in_range(self):
        return within(MOST_DIFFERENCE, self.observed) and 1 <= self.single <= MOST_WEIGHT

    def matrix_fits(self):
        return True


@dataclass(frozen=True)
class Position(Weighted):
    station: int
    observed: tuple           # its coordinates E, N, U
    weights: tuple

    @property
    def ends(self):
        return ((self.station, 1),)

    @property
    def reduced(self):
        return self.observed

    def values_in_range(self):
        return within(MOST_COORDINATE, self.observed) and self.weights_in_range()


@dataclass(frozen=True)
class CheckDistance(FromTo):
    start: int
    end: int
    distance: int
    instrument_height: int    # above the mark that it is taped from
    target_height: int        # above the mark that it is taped to
    tolerance: int


class Network:
    def __init__(self, stations):
        self.stations = list(stations)
        self.index = {}                                   # (station number, component) -> index of the unknown, from 0
        for number, station in enumerate(self.stations, 1):
            for c in range(3):
                if station.unknown(c):
                    self.index[number, c] = len(self.index)
        self.n = len(self.index)

    def at(self, number):
        return self.stations[number - 1]

    def provisional(self, record, c):
        """What the provisional coordinates give for the observed value: the difference, to minus from, or the coordinate itself."""
        return sum(sign * self.at(s).coordinate(c) for s, sign in record.ends)

    def misclosure(self, record, c):
        return record.reduced[c] - self.provisional(record, c)


def open_number(rows):
    """Refusal 1 of a list of (kind, E, N, U); 0 where it opens."""
    if not 1 <= len(rows) <= 32:
        return 1
    for kind, *coordinates in rows:
        if kind not in (KNOWN, FREE, HEIGHT) or not within(MOST_COORDINATE, coordinates):
            return 1
    return 0 if 1 <= Network(Station(*row) for row in rows).n <= 48 else 1


def ends_fit(net, r):
    """Whether the stations are in the list, and from and to, where there are both, not equal."""
    stations = {s for s, _ in r.ends}
    return all(1 <= s <= len(net.stations) for s in stations) and len(stations) == len(r.ends)


def record_number(net, r):
    """Refusals 3 to 6 of a record; 0 for none."""
    if not ends_fit(net, r):
        return 3
    if not r.values_in_range():
        return 4
    if not r.matrix_fits():
        return 5
    return 0 if within(MOST_MISCLOSURE, (net.misclosure(r, c) for c in r.components)) else 6


def normals(net, records):
    """N and u of the records, by N = AᵀPA and u = AᵀPl."""
    n = net.n
    matrix = [[0] * n for _ in range(n)]
    right = [0] * n
    for r in records.values():
        row = [(net.index[s, c], sign, c) for s, sign in r.ends for c in r.components if (s, c) in net.index]
        for i, a, c in row:
            for j, b, d in row:
                matrix[i][j] += a * r.weight(c, d) * b
            right[i] += sum(a * r.weight(c, d) * net.misclosure(r, d) for d in r.components)
    return matrix, right


# By the limits behind refusals 4 and 6 an entry of N or u is at most 256 records · 3 · 10,000 · 100,000, so an edit is never refused with 9.
assert 256 * 3 * 10_000 * MOST_MISCLOSURE < LIMIT


class Ledger:
    """Document 01's plain ledger: standing edits in order, and how many can be taken back."""

    def __init__(self, net):
        self.net = net
        self.edits = []           # the places of the standing edits, in order
        self.entries = {}         # place -> what its standing edits put there, in order; None for a strike
        self.count = 0

    def at(self, place):
        """What the last standing edit of the place puts there; None where it is empty."""
        entries = self.entries.get(place)
        return entries[-1] if entries else None

    def records(self):
        return {p: self.at(p) for p in sorted(self.entries) if self.at(p) is not None}

    def _accept(self, place, record):
        self.edits.append(place)
        self.entries.setdefault(place, []).append(record)
        self.count = min(self.count + 1, 64)
        return 0

    def enter(self, place, record):
        if not 1 <= place <= 256:
            return 2
        return record_number(self.net, record) or self._accept(place, record)

    def strike(self, place):
        if not 1 <= place <= 256:
            return 2
        if self.at(place) is None:
            return 7
        return self._accept(place, None)

    def undo(self):
        if self.count == 0:
            return 8
        self.entries[self.edits.pop()].pop()
        self.count -= 1
        return 0


def tied(net, records, c):
    """The stations where a chain in the component may end, held in it or with a position record, and those that records acting in it join to them."""
    found = {s for s in range(1, len(net.stations) + 1) if not net.at(s).unknown(c)} | {r.station for r in records.values() if isinstance(r, Position)}
    joins = {pair for r in records.values() if c in r.components for pair in permutations([s for s, _ in r.ends], 2)}
    while True:
        more = {t for s, t in joins if s in found} - found
        if not more:
            return found
        found |= more


def untied(net, records):
    """The lowest unknown, from 1, without a chain to a held station or to one with a position record; None where all are tied."""
    found = [tied(net, records, c) for c in range(3)]
    missing = [i for (s, c), i in net.index.items() if s not in found[c]]
    return min(missing) + 1 if missing else None


def check(net, records, x, m, room=None):
    """The answer of a check: (0,), (number,) or (11, unknown). `room` is the words of the lent sheet, None where none is lent."""
    n = net.n
    if len(x) != n or len(m) != n * n or (room is not None and room < sheet_room(net, records)):
        return (10,)
    first = untied(net, records)
    if first:
        return (11, first)
    if any(abs(v) > 100_000 for v in x):
        return (12,)
    if any(abs(v) > 2 ** 34 for v in m):
        return (13,)
    matrix, right = normals(net, records)
    for i in range(n):
        row = m[i * n:(i + 1) * n]
        if sum(abs((S if i == j else 0) - sum(row[k] * matrix[k][j] for k in range(n))) for j in range(n)) > 2 ** 26:
            return (14,)
    r = [right[i] - sum(matrix[i][j] * x[j] for j in range(n)) for i in range(n)]
    if any(abs(v) > 2 ** 23 for v in r):
        return (15,)
    if any(abs(sum(m[i * n + k] * r[k] for k in range(n))) > 15 * 2 ** 26 for i in range(n)):
        return (16,)
    if abs(square_sum(net, records, x)) > LIMIT:
        return (9,)
    return (0,)


def residual(net, r, x, c, d=1):
    """The residual at the corrections x over d, times d."""
    return d * net.misclosure(r, c) - sum(sign * x[net.index[s, c]] for s, sign in r.ends if (s, c) in net.index)


def in_adjustment(net, r):
    """Whether an end has an unknown in a component that the record acts on. Where none has, the record is a check only: it adds nothing to D or T."""
    return any(net.at(s).unknown(c) for s, _ in r.ends for c in r.components)


def square_sum(net, records, x, d=1):
    """T at the corrections x over d, times d squared."""
    total = 0
    for r in records.values():
        if in_adjustment(net, r):
            v = {c: residual(net, r, x, c, d) for c in r.components}
            total += sum(v[a] * r.weight(a, b) * v[b] for a in r.components for b in r.components)
    return total


def local_verdict(net, r, x, m, c):
    def entry(s, t):
        return m[net.index[s, c] * net.n + net.index[t, c]] if (s, c) in net.index and (t, c) in net.index else 0
    q = r.variance(c) - sum(a * b * entry(s, t) for s, a in r.ends for t, b in r.ends)      # M_tt + M_ff − M_tf − M_ft, or M_ss alone
    v = residual(net, r, x, c)
    if q < 2 ** 14:
        return LOOSE
    return FAIL if v * v * 2 ** 24 > 60025 * q else PASS


def freedom(net, records):
    return sum(len(r.components) for r in records.values() if in_adjustment(net, r)) - net.n


def global_verdict(t, d):
    if not 1 <= d <= 30:
        return NONE
    lower, upper = CHI_SQUARE[d - 1]
    return LOW if t < 1000 * lower else HIGH if t > 1000 * upper else PASS


def sheet_room(net, records):
    return 5 + 7 * len(net.stations) + sum(1 + 2 * len(r.components) for r in records.values())


def adjusted(net, x, number):
    """A station's coordinates: provisional plus correction."""
    return [net.at(number).coordinate(c) + (x[net.index[number, c]] if (number, c) in net.index else 0) for c in range(3)]


def sheet(net, records, x, m):
    """The words of the sheet of an accepted pair."""
    n = net.n
    words = [len(records), n]
    for number in range(1, len(net.stations) + 1):
        indices = [net.index.get((number, c)) for c in range(3)]
        words += [number, *adjusted(net, x, number)]
        words += [m[i * n + i] if i is not None else 0 for i in indices]
    for place, r in sorted(records.items()):
        words.append(place)
        words += [residual(net, r, x, c) for c in r.components]
        words += [local_verdict(net, r, x, m, c) for c in r.components]
    t, d = square_sum(net, records, x), freedom(net, records)
    return words + [t, d, global_verdict(t, d)]


def in_range(d):
    """Whether the values of a check distance are within their limits."""
    heights = all(0 <= h <= MOST_HEIGHT_ABOVE_MARK for h in (d.instrument_height, d.target_height))
    return heights and 1 <= d.distance <= MOST_DISTANCE and 0 <= d.tolerance <= MOST_TOLERANCE and d.tolerance < d.distance


def squared_distance(start, end, d):
    """D² between the coordinates of the two stations: the sum of squared differences, the U difference taken plus target height minus instrument height."""
    east, north, up = (b - a for a, b in zip(start, end))
    return east ** 2 + north ** 2 + (up + d.target_height - d.instrument_height) ** 2


def agrees(square, d):
    return (d.distance - d.tolerance) ** 2 <= square <= (d.distance + d.tolerance) ** 2


def check_distance(net, records, x, m, d, checked=None):
    """The answer to a check distance asked with a pair: (0,) where it agrees, (DISAGREES,) where not, (3,), (17,), or what `check` refuses the pair with. `checked` is the
    answer of `check` to the pair, where the caller has it already."""
    if not ends_fit(net, d):
        return (3,)
    if not in_range(d):
        return (17,)
    checked = checked or check(net, records, x, m)
    if checked != (0,):
        return checked
    return (0,) if agrees(squared_distance(adjusted(net, x, d.start), adjusted(net, x, d.end), d), d) else (DISAGREES,)
