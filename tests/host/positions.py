"""Positions on the static library, from a fixed seed: every answer and every byte of the book against the independent implementation in tests/reference. Both sides of every limit that
request 5 names: of a coordinate, a weight, a matrix, a misclosure and a station's number, each with the refusal that coverage.py has for it, in the call and in the bytes of a place and
of the journal; extreme numbers; each refusal alone and with the others. Networks that are tied by positions, one after the other, and loose again without them. A position at a known
station, which changes neither N and u nor T and D. Local verdicts that another variance would change. In the end the same network with a baseline from a known station at 0, 0, 0 in
place of each position gives the same N and u, and the same sheet. Fails too where it meets less than coverage.py asks. Prints 'N passed, M failed' last.

    python3 tests/host/positions.py LIBRARY.so
"""
import itertools
import struct
import sys

from comparison import Edits
from coverage import POSITIONS
from expected import check, entering, packed, words_in
from layout import MATRIX_AT, PLACES_AT, SLOTS_AT, normal_bytes, record_words
from library import Buffer, Header, Library
import kinds
from observed_positions import PLAIN, exchanged, near
import survey

LIMIT_BOOKS, CHAIN_BOOKS, VERDICT_BOOKS = 12, 160, 80
COUNTS = (1, 2, 31, 32)                    # of stations, for the limits of their numbers
END = survey.MOST_COORDINATE
FAR = (-2 ** 63, -2 ** 63 + 1, -2 ** 62, 2 ** 62, 2 ** 63 - 2, 2 ** 63 - 1)
HEADER = {'BAD_ENDS': 3, 'OUT_OF_RANGE': 4, 'BAD_MATRIX': 5, 'BAD_MISCLOSURE': 6, 'BAD_BOOK': 25, 'COORDINATE_MAX': END}      # what it must say
LAST = 256                                 # the place that positions are entered at; the network is at the first ones
WEIGHTS = ('EE', 'EN', 'EU', 'NN', 'NU', 'UU')
DIAGONAL = (0, 3, 5)                       # of them
MATRICES = {                               # each also with its axes exchanged, by which none is more or less positive definite
    'second minor 1': (2, 1, 0, 1, 0, 1), 'second minor 0': (1, 1, 0, 1, 0, 1), 'second minor below 0, the others above': (1, 2, 2, 1, 2, 1),
    'determinant 1': (1, 0, 0, 1, 0, 1), 'determinant 0': (1, 0, 1, 1, 0, 1), 'determinant below 0': (1, 0, 2, 1, 0, 1)}
ADJUGATES = {'16 determinants': (1, 15, 0, 240, 0, 1), '16 determinants and 1': (1, 4, 0, 17, 0, 1)}      # the entry of the first axis
FAULTS = (25, 2, 3, 4, 5, 6)
OTHER_VARIANCES = ('none', 'M_ss twice', 'that of a baseline')      # in place of M_ss


def with_value(values, k, value):
    return (*values[:k], value, *values[k + 1:])


def verdict(v, q):
    """The local verdict of a residual whose variance is q, as document 01 has it."""
    return survey.LOOSE if q < 2 ** 14 else survey.FAIL if v * v * 2 ** 24 > 60025 * q else survey.PASS


class Positions(Edits):
    # ---- one position
    def position(self, net, station):
        """One by the rules."""
        return self.arguments.by_the_rules(net, 'position', station, station, 300)

    def at_limit(self, book, model, what, which, r):
        """Enters a position, and has it in the bytes of a place and of the journal; notes its number under the name of the limit."""
        number = self.enter(book, model, LAST, r)
        self.coverage.note(what, '%s: %d' % (which, number))
        for where, data in (('a place', self.in_place(book.get(), model, r)), ('the journal', self.in_journal(book.get(), model, r))):
            self.same('%r in %s' % (r, where), self.call('unknowns', Buffer(data))[0] % 256, 25 if number else 0)
            self.coverage.note('in ' + where, number)

    def in_place(self, data, model, r):
        """The bytes of the book with the position at place 1, where there is a record; N and u are with it too where they can be worked out in words."""
        data = bytearray(data)
        struct.pack_into('<14q', data, 8 * PLACES_AT, *record_words(r))
        if survey.ends_fit(model.net, r) and all(abs(v) < 2 ** 31 for v in (*r.observed, *r.weights)):
            data[8 * MATRIX_AT:] = normal_bytes(model.net, {**model.records, 1: r})
        return bytes(data)

    def in_journal(self, data, model, r):
        """The bytes of the book with the position as what one of the undos restores."""
        data = bytearray(data)
        k = self.rng.choice([k for k, slot in enumerate(model.slots) if slot])
        struct.pack_into('<14q', data, 8 * (SLOTS_AT + 15 * k + 1), *record_words(r))
        return bytes(data)

    # ---- limits
    def limit_stations(self):
        """One of each kind, then one at either end of the range of each coordinate, or so far from it that both sides are within the misclosure's range."""
        r = self.rng
        inner = [[kind, *(r.randint(-300_000, 300_000) for _ in range(3))] for kind in (survey.KNOWN, survey.FREE, survey.HEIGHT)]
        outer = []
        for c, sign in itertools.product(range(3), (-1, 1)):
            row = [r.choice([survey.KNOWN, survey.FREE, survey.HEIGHT]), *(r.randint(-300_000, 300_000) for _ in range(3))]
            row[1 + c] = sign * (END - r.choice([0, 1, r.randint(2, 99_998), 99_999]))
            outer.append(row)
        return inner + outer

    def limit_book(self):
        """A book of a few records, the first a position, and what the limits are tried on."""
        book, model = self.opened(self.limit_stations())
        self.put(book, model, 1, survey.Position(2, near(self.rng, model.net, 2), PLAIN))
        for place in range(2, 8):
            self.put(book, model, place, self.arguments.by_the_rules(model.net, self.rng.choice(['baseline', 'height', 'position']), *self.rng.sample((1, 2, 3), 2), 300))
        self.edit(book, model, 'strike', [7])
        tried = [*self.coordinates(model.net), *self.weights(model.net), *self.matrices(model.net), *self.misclosures(model.net)]
        self.rng.shuffle(tried)
        for limit in tried:
            self.at_limit(book, model, *limit)
        self.all_faults(book, model)

    def inner(self, net, weights=PLAIN):
        """A position by the rules but for its weights, at a station that is far from the limits."""
        station = self.rng.choice((1, 2, 3))
        return survey.Position(station, near(self.rng, net, station), weights)

    def coordinates(self, net):
        for k, (c, sign) in enumerate(itertools.product(range(3), (-1, 1)), 4):
            at = near(self.rng, net, k)
            for size in (END - 1, END, END + 1):
                yield 'coordinates', '%s %d' % ('ENU'[c], sign * size), survey.Position(k, with_value(at, c, sign * size), PLAIN)
        for c, value in itertools.product(range(3), FAR):
            r = self.inner(net)
            yield 'coordinates', '%s far' % 'ENU'[c], survey.Position(r.station, with_value(r.observed, c, value), PLAIN)

    def weights(self, net):
        """On the diagonal of a matrix that has nothing beside it; beside the largest diagonal, where 10,000 is in range and the second minor 0."""
        for k, name in enumerate(WEIGHTS):
            size, values = (100, (0, 1, 10_000, 10_001)) if k in DIAGONAL else (10_000, (9_999, 10_000, 10_001, -9_999, -10_000, -10_001))
            base = (size, 0, 0, size, 0, size)
            for value in (*values, *FAR):
                yield 'weights', '%s %s' % (name, 'far' if value in FAR else value), self.inner(net, with_value(base, k, value))

    def matrices(self, net):
        for axes in itertools.permutations(range(3)):
            for name, weights in MATRICES.items():
                yield 'matrices', name, self.inner(net, exchanged(weights, axes))
            for name, weights in ADJUGATES.items():
                yield 'matrices', 'adjugate %s in %s' % (name, 'ENU'[axes.index(0)]), self.inner(net, exchanged(weights, axes))

    def misclosures(self, net):
        for station, c, sign, size in itertools.product((1, 2, 3), range(3), (-1, 1), (99_999, 100_000, 100_001)):
            at = with_value(near(self.rng, net, station), c, net.at(station).coordinate(c) + sign * size)
            yield 'misclosures', '%s %s %d' % (kinds.STATIONS[net.at(station).kind], 'ENU'[c], sign * size), survey.Position(station, at, PLAIN)

    def station_numbers(self, count):
        """A list of so many stations, the first free, and positions at numbers beside its ends."""
        r = self.rng
        book, model = self.opened([(survey.FREE if k == 0 else survey.KNOWN, *(r.randint(-300_000, 300_000) for _ in range(3))) for k in range(count)])
        self.put(book, model, 1, survey.Position(1, near(r, model.net, 1), PLAIN))
        for station in (0, 1, count, count + 1, 32, 33):
            at = near(r, model.net, station if 1 <= station <= count else 1)
            self.at_limit(book, model, 'stations', '%d of %d' % (station, count), survey.Position(station, at, PLAIN))
        for station in (-1, 2 ** 32 + 1, -2 ** 32 + 1, *FAR):
            self.at_limit(book, model, 'stations', 'far', survey.Position(station, near(r, model.net, 1), PLAIN))

    def all_faults(self, book, model):
        """Every set of refusals that apply, 25 among them: the first is given."""
        earlier = Buffer(packed([2]) + book.get()[8:])
        for faults in itertools.chain.from_iterable(itertools.combinations(FAULTS, k) for k in range(1, len(FAULTS) + 1)):
            lent = (earlier, None) if 25 in faults else (book, model)
            self.same('the first of %r' % (faults,), self.edit(*lent, *self.with_faults(model.net, faults)), faults[0])
            self.coverage.note('what refuses', ' '.join(map(str, faults)))

    def with_faults(self, net, faults):
        """(name, numbers) of an enter with these faults: a place, a station, a weight or a coordinate out of range, a matrix, a misclosure."""
        r = self.rng
        place = r.choice([0, 257, -1, *FAR]) if 2 in faults else LAST
        station = r.choice([0, len(net.stations) + 1, -1, *FAR]) if 3 in faults else r.choice((1, 2, 3))
        east, north, up = near(r, net, station if 3 not in faults else 1)
        far_east = {4, 6} <= set(faults) and r.random() < 0.5      # a coordinate that is out of range here has a misclosure that is
        if 6 in faults:
            east = r.choice([END + 1, -END - 1, *FAR]) if far_east else east + r.choice([-1, 1]) * 700_000
        ee = r.choice([10_001, 2 ** 62]) if 4 in faults and not far_east else r.choice([1, 10_000])
        weights = (ee, 0, 0, 100, r.choice([100, -100, 101]), 100) if 5 in faults else (ee, 0, 0, 100, r.choice([0, 99]), 100)
        return entering(place, survey.Position(station, (east, north, up), weights))

    # ---- chains
    def chain_book(self):
        """Records between stations that are not known; then a position for the first unknown that is not tied, until all are; then the positions are struck."""
        r = self.rng
        book, model = self.opened(self.arguments.tied_stations(1, 24, r.random() < 0.5))
        places = itertools.count(1)
        adjusted = [k for k, row in enumerate(model.rows, 1) if row[0] != survey.KNOWN]
        for _ in range(r.randint(0, 2 * len(adjusted)) if len(adjusted) > 1 else 0):
            self.put(book, model, next(places), self.arguments.by_the_rules(model.net, r.choice(['baseline', 'height']), *r.sample(adjusted, 2), 300))
        positions = []
        missing = self.first_untied(book, model)
        while missing:
            position = self.position_for(model, *missing)
            positions.append(next(places))
            self.put(book, model, positions[-1], position)
            self.note_tie(model, position.station, *missing)
            missing = self.first_untied(book, model)
        self.note_ties('sheets by their ties', model)
        self.sheet(book, model)
        for place in r.sample(positions, len(positions)):
            self.same('a strike', self.edit(book, model, 'strike', [place]), 0)
            self.first_untied(book, model)

    def first_untied(self, book, model):
        """(station, component) of the unknown that a check of zeros is to be refused with 11 for; None where it is to go on to M, and is refused with 14."""
        x, m = bytes(8 * model.net.n), bytes(8 * model.net.n ** 2)
        got, (result, _) = self.call('check', book, Buffer(x), Buffer(m)), check(model, x, m)
        self.compare('check', got, result, got[1])
        return next((key for key, index in model.net.index.items() if result == 11 + 256 * (index + 1)), None)

    def position_for(self, model, station, c):
        """A position at one of the stations that records join in the component to that of an unknown, at its own, or anywhere."""
        r = self.rng
        own = self.position(model.net, station)
        joined = survey.tied(model.net, {**model.records, 0: own}, c) - survey.tied(model.net, model.records, c)
        return self.position(model.net, r.choice([r.choice(sorted(joined)), r.choice([station, r.randint(1, len(model.rows))])]))

    def note_tie(self, model, station, missing, c):
        """What a position at the station does for the unknown of the missing one, which was the first without a chain."""
        where = 'its own station' if station == missing else 'another station'
        self.coverage.note('a position for the first untied unknown', '%s, %s: %s' % (where, 'ENU'[c], 'tied' if missing in survey.tied(model.net, model.records, c) else 'not tied'))

    # ---- sheets
    def sheet(self, book, model):
        """(x, M, the sheet that the library writes for the exact pair, rounded), compared word by word."""
        x, m = self.arguments.exact(model)
        lent = Buffer(bytes(8 * survey.sheet_room(model.net, model.records)))
        self.same('check_sheet', self.call('check_sheet', book, Buffer(packed(x)), Buffer(packed(m)), lent)[0], 0)
        words = words_in(lent.get())
        self.same('the sheet', words, survey.sheet(model.net, model.records, x, m))
        self.note_sheet(model, x, m)
        return x, m, words

    def note_sheet(self, model, x, m):
        """The positions of a sheet, and the local verdicts of theirs that another variance in place of M_ss would change."""
        net = model.net
        for r in model.records.values():
            if not isinstance(r, survey.Position):
                continue
            self.coverage.note('positions on sheets', kinds.STATIONS[net.at(r.station).kind])
            for c in r.components:
                v, index = survey.residual(net, r, x, c), net.index.get((r.station, c))
                right = survey.local_verdict(net, r, x, m, c)
                self.coverage.note('their local verdicts', ('PASS', 'FAIL', 'LOOSE')[right])
                for name, variance in self.other_variances(net, m, index, c):
                    if verdict(v, r.variance(c) - variance) != right:
                        self.coverage.note('verdicts that another variance would change', name)

    def other_variances(self, net, m, index, c):
        """None at all, M_ss twice, and what a baseline from each other station would have; in a held component they are all 0."""
        if index is None:
            return
        own = m[index * net.n + index]
        yield from zip(OTHER_VARIANCES, (0, 2 * own))
        for (_, component), k in net.index.items():
            if component == c and k != index:
                yield OTHER_VARIANCES[2], own + m[k * net.n + k] - m[index * net.n + k] - m[k * net.n + index]

    def verdict_book(self):
        """Stations that have some positions each, with residuals about as large as the local test allows, and other records; then one position more, and baselines in their place."""
        r = self.rng
        rows = [(kind, *(r.randint(-300_000, 300_000) for _ in range(3))) for kind in r.choices([survey.KNOWN, survey.FREE, survey.FREE, survey.HEIGHT], k=r.randint(1, 6))]
        book, model = self.opened([*rows, (survey.FREE, 0, 0, 0)])
        size = r.choice([100, 400, 2_500])                   # of the weights; a standard deviation is 1,000 over its root
        places = itertools.count(1)
        for station in range(1, len(model.rows) + 1):
            for _ in range(r.randint(1, 4)):
                at = near(r, model.net, station, int(2_200 / size ** 0.5))
                self.put(book, model, next(places), survey.Position(station, at, (size, r.randint(-9, 9), 0, size, 9, size)))
        for _ in range(r.randint(0, len(model.rows))):
            self.put(book, model, next(places), self.arguments.any_record(model.net, 100))
        self.sheet(book, model)
        self.one_more(book, model, next(places))
        self.as_baselines(book, model)

    def one_more(self, book, model, place):
        """At a known station it is a check only, which adds a line to the sheet and changes nothing else; at another it is in the adjustment, and D rises by 3."""
        (x, m, before), kept = self.sheet(book, model), book.get()[8 * MATRIX_AT:]
        station = self.rng.randint(1, len(model.rows))
        r = self.position(model.net, station)
        self.put(book, model, place, r)
        kind = model.net.at(station).kind
        if kind == survey.KNOWN:
            after = self.sheet(book, model)[2]
            self.same('N and u with a check only', book.get()[8 * MATRIX_AT:], kept)
            own = [place, *(survey.residual(model.net, r, x, c) for c in range(3)), *(survey.local_verdict(model.net, r, x, m, c) for c in range(3))]
            self.same('a sheet with a check only', after, [before[0] + 1, *before[1:-3], *own, *before[-3:]])
        else:
            self.same('D with one position more', self.sheet(book, model)[2][-2], before[-2] + 3)
        self.coverage.note('one position more', kinds.STATIONS[kind])

    def as_baselines(self, book, model):
        """A baseline from one known station more, at 0, 0, 0, in place of each position: the same N and u, and the same sheet but for that station's line, by the library alone."""
        other, same = self.opened([*model.rows, (survey.KNOWN, 0, 0, 0)])
        origin = len(same.rows)
        for place, r in sorted(model.records.items()):
            self.put(other, same, place, survey.Baseline(origin, r.station, r.observed, r.weights) if isinstance(r, survey.Position) else r)
        self.same('N and u from a station at 0, 0, 0', other.get()[8 * MATRIX_AT:], book.get()[8 * MATRIX_AT:])
        words, others = self.sheet(book, model)[2], self.sheet(other, same)[2]
        stations = 2 + 7 * len(model.rows)
        self.same('the sheet from a station at 0, 0, 0', others, [*words[:stations], origin, 0, 0, 0, 0, 0, 0, *words[stations:]])

    def run(self):
        constants = Header().constants
        for name, want in HEADER.items():
            self.same('%s in the header' % name, constants.get(name), want)
        for count in COUNTS:
            self.station_numbers(count)
        for books, make in ((LIMIT_BOOKS, self.limit_book), (CHAIN_BOOKS, self.chain_book), (VERDICT_BOOKS, self.verdict_book)):
            for _ in range(books):
                make()


if __name__ == '__main__':
    Positions(Library(sys.argv[1]), 20261119).report(POSITIONS)
