"""Random arguments of the C calls, valid ones and such as must be refused, and damage to a book's bytes. All from one random source, so that a seed fixes a run."""
import math
import struct

from layout import BYTES, COUNT_AT, HEIGHTS_AT, MATRIX_AT, NEXT_AT, PLACES, PLACES_AT, SLOTS, SLOTS_AT, TO_AT, WORDS
from expected import entering, packed
import antennas
import solve
import survey

EXTREME = [0, 1, -1, 2, 32, 33, 48, 256, 257, 100_000, 100_001, 10_000, 10_001, 300_000, 300_001, 500_000_000, 500_000_001, 1_000_000_000, 1_000_000_001,
           -500_000_001, -1_000_000_001, 2 ** 31, 2 ** 62, 2 ** 63 - 1, -2 ** 63, -2 ** 62]
SHORT = [0, 1, 7, 8, BYTES // 2, BYTES - 8, BYTES - 1]
LENGTHS = {'as asked': lambda data: data, 'empty': lambda data: b'', 'a word short': lambda data: data[:-8], 'a byte short': lambda data: data[:-1],
           'a byte long': lambda data: data + b'\x5a', 'a word long': lambda data: data + b'\x5a' * 8, 'far longer': lambda data: data + b'\x5a' * 24_000}
RECORDS = {'nothing': 0, 'a baseline': 1, 'a height difference': 2, 'a position': 4}      # by the kind word
OTHER_WORDS = {                                                          # of a record of that kind: which words, and what one of them is given, beside one less and one more
    **{'antenna heights of ' + what: (kind, (HEIGHTS_AT, HEIGHTS_AT + 1), antennas.NEAR) for what, kind in RECORDS.items()},
    **{'kind of ' + what: (kind, (0,), range(6)) for what, kind in RECORDS.items()},
    'to of a position': (4, (TO_AT,), (1, 2, 32))}
LAYOUTS_BEFORE = {'layout number 1': 1, 'layout number 2': 2}            # until antenna heights came, and until positions did
DAMAGE = 2 * ['cut short', 'a bit', 'a word', 'a head', 'a journal word', 'places exchanged'] + [*LAYOUTS_BEFORE, *OTHER_WORDS]
CHAIN_ENDS = [(True, 0), (True, 0.2), (True, 1), (False, 0), (False, 1)]      # of a tied network: whether a station is known, and the share of the stations with a position
SLICES = {'check': ('x', 'm'), 'check_sheet': ('x', 'm', 'sheet'), 'check_distance': ('x', 'm'), 'propose': ('x', 'm'), 'stations': ('list',), 'record': ('record',)}


class Arguments:
    def __init__(self, rng):
        self.rng = rng
        self.solved = (None, None)          # the latest book that `exact` solved, by what it depends on, and its pair

    def bytes(self, count):
        return self.rng.getrandbits(8 * count).to_bytes(count, 'little') if count else b''

    def odd(self, v):
        return self.rng.choice(EXTREME) if self.rng.random() < 0.02 else v

    # ---- stations and records
    def stations(self):
        """A list of stations; about one in three is outside the rules."""
        r = self.rng
        count = r.choice([1, 2, 3, 4, 6, 8, 12, 20, 32, 33, 0])
        rows = [[r.choice([1, 1, 2, 3, 3]), *(r.randint(-300_000, 300_000) for _ in range(3))] for _ in range(count)]
        if rows:
            rows[0][0] = 1 if r.random() < 0.9 else rows[0][0]
        if rows and r.random() < 0.3:
            row = r.choice(rows)
            row[r.randrange(4)] = r.choice(EXTREME)
        return [tuple(v) for v in rows]

    def tied_network(self, low, high):
        """(stations, records) of low to high unknowns, each with a chain to a held station or to one with a position."""
        held, share = self.rng.choice(CHAIN_ENDS)
        rows = self.tied_stations(low, high, held)
        return rows, self.tied_records(survey.Network(survey.Station(*row) for row in rows), share)

    def tied_stations(self, low, high, held):
        """A list that opens, of low to high unknowns: the first station is known and the others are of any kind, or none is held in any component."""
        r = self.rng
        while True:
            kinds = [survey.KNOWN if k == 0 else r.choice([1, 2, 2, 3, 3]) for k in range(r.randint(2, 32))] if held else [survey.FREE] * r.randint(1, 16)
            rows = [(kind, *(r.randint(-300_000, 300_000) for _ in range(3))) for kind in kinds]
            if survey.open_number(rows) == 0 and low <= survey.Network(survey.Station(*row) for row in rows).n <= high:
                return rows

    def weights(self):
        """A matrix by the rules."""
        r = self.rng
        k = r.choice([100, 3_000, 9_999])
        ee, nn, uu = (r.randint(k // 2, k) for _ in range(3))
        en, eu, nu = (r.randint(-k // 6, k // 6) for _ in range(3))
        return ee, en, eu, nn, nu, uu

    def by_the_rules(self, net, kind, start, end, slip):
        """A record between the two stations, or a position at the second, whose misclosures are at most slip."""
        r = self.rng
        at = tuple(net.at(end).coordinate(c) + r.randint(-slip, slip) for c in range(3))
        if kind == 'position':
            return survey.Position(end, at, self.weights())
        east, north, up = (v - net.at(start).coordinate(c) for c, v in enumerate(at))
        if kind == 'height':
            return survey.Level(start, end, up, r.randint(50, 10_000))
        heights = antennas.heights(r)
        return survey.Baseline(start, end, (east, north, up - heights[0] + heights[1]), self.weights(), heights)

    def tied_records(self, net, share):
        """Records that tie every unknown, and some more: up to all places. Of the stations this share is tied by a position, and the first one where it is not known."""
        r = self.rng
        count = len(net.stations)
        slip = r.choice([2, 15, 40, 500])           # small and large for the weights, so that every verdict comes
        ties = []
        for k in range(1, count + 1):
            if r.random() < share or (k == 1 and net.at(k).kind != survey.KNOWN):
                ties.append(self.by_the_rules(net, 'position', k, k, slip))
            elif k > 1:
                kind = 'baseline' if net.at(k).kind == survey.FREE or r.random() < 0.3 else 'height'
                ties.append(self.by_the_rules(net, kind, *r.sample([r.randrange(1, k), k], 2), slip))
        more = r.choice([0, 3, count, 3 * count, PLACES - len(ties)])
        return ties + [self.any_record(net, slip) for _ in range(more)]

    def any_record(self, net, slip):
        """By the rules, of any kind, at any stations; where there is but one, a position."""
        r = self.rng
        count = len(net.stations)
        kind = r.choice(['baseline', 'height', 'position']) if count > 1 else 'position'
        return self.by_the_rules(net, kind, *(r.sample(range(1, count + 1), 2) if count > 1 else (1, 1)), slip)

    def record(self, net, kind):
        """Most by the rules, the others near their limits or extreme."""
        r = self.rng
        count = len(net.stations)
        start, end = r.randint(1, count), r.randint(1, count)
        if start == end and count > 1 and r.random() < 0.95:
            end = start % count + 1
        made = self.by_the_rules(net, kind, start, end, r.choice([50, 2_000, 99_999, 100_000, 100_001, 110_000]) if r.random() < 0.2 else 300)
        start, end = self.odd(start), self.odd(end)
        if kind == 'height':
            return survey.Level(start, end, self.odd(made.up), self.odd(made.single))
        weights = made.weights
        if r.random() < 0.1:
            k = max(weights)
            weights = tuple(v if i in (0, 3, 5) else r.randint(-k, k) for i, v in enumerate(weights))
        observed, weights = (tuple(self.odd(v) for v in part) for part in (made.observed, weights))
        if kind == 'position':
            return survey.Position(end, observed, weights)
        return survey.Baseline(start, end, observed, weights, tuple(self.odd(v) for v in made.heights))

    def edit(self, name, book):
        """The numbers of an edit of that name. The place of a strike is most often filled, that of an enter filled or empty; some enters are of the record that is there."""
        r = self.rng
        call, _, kind = name.partition('_')
        if call == 'undo':
            return []
        place = self.odd(r.randint(1, PLACES) if r.random() < 0.4 else r.randint(1, 60) if call == 'enter' and r.random() < 0.5 else r.choice(sorted(book.records) or [1]))
        if call == 'strike':
            return [place]
        if r.random() < 0.08:
            equal = [numbers for made, numbers in (entering(p, v) for p, v in sorted(book.records.items())) if made == name]
            if equal:
                return r.choice(equal)
        return entering(place, self.record(book.net, kind))[1]

    # ---- checks, proposals, readings
    def exact(self, book):
        """The exact answer and 2^30 times the exact inverse, rounded; None where there is none."""
        key = tuple(book.rows), tuple(sorted(book.records.items()))
        if self.solved[0] != key:
            tied = survey.untied(book.net, book.records) is None
            self.solved = key, solve.rounded(*survey.normals(book.net, book.records)) if tied else None
        return self.solved[1]

    def pair(self, book):
        """Corrections and M to check: the exact ones rounded, or such with one number off; zeros where there are none."""
        r = self.rng
        n = book.net.n
        x, m = (list(v) for v in self.exact(book) or ([0] * n, [0] * (n * n)))
        off = r.random()
        if off < 0.3:
            x[r.randrange(n)] += r.choice([1, -1, 2, -50, 5_000, -90_000, 100_001, 2 ** 62])
        elif off < 0.5:
            k = r.randrange(n * n)
            m[k] = r.choice([m[k] + 1, m[k] - 1, m[k] + 1000, m[k] + 2 ** 20, m[k] - 2 ** 28, 2 ** 34 + 1, -2 ** 63])
        return x, m

    def distance(self, book):
        """The numbers of a check distance: most about as long as the exact corrections make it, some extreme."""
        r = self.rng
        net = book.net
        x = (self.exact(book) or ([0] * net.n,))[0]
        start, end = (r.randint(1, len(net.stations)) for _ in range(2))
        heights = [r.randint(0, survey.MOST_HEIGHT_ABOVE_MARK) for _ in range(2)]
        tolerance = r.choice([0, 1, 50, 3_000])
        between = survey.CheckDistance(start, end, 0, *heights, tolerance)
        length = math.isqrt(survey.squared_distance(survey.adjusted(net, x, start), survey.adjusted(net, x, end), between))
        return [self.odd(v) for v in (start, end, length + r.randint(-tolerance - 2, tolerance + 2), *heights, tolerance)]

    def place(self, book):
        """A place to read: most often a filled one, or one at a limit."""
        return self.rng.choice([self.rng.randint(-1, 258), self.rng.choice(sorted(book.records) or [1]), self.rng.choice([0, 1, 256, 257, *EXTREME])])

    def slices(self, name, book):
        """(the slices of a call in their order, {slice: the name of its length}): most as the book asks, in the others one slice has another length."""
        r = self.rng
        n = book.net.n
        if name in ('check', 'check_sheet', 'check_distance'):
            lent = [packed(v) for v in self.pair(book)]
        elif name == 'propose':
            lent = [self.bytes(8 * n), self.bytes(8 * n * n)]
        else:
            lent = [self.bytes({'stations': 32 * len(book.rows), 'record': 112}[name])]
        if name == 'check_sheet':
            lent.append(self.bytes(8 * survey.sheet_room(book.net, book.records)))
        lengths = dict.fromkeys(SLICES[name], 'as asked')
        if r.random() < 0.4:
            k = r.randrange(len(lent))
            length = r.choice(list(LENGTHS))
            lent[k] = LENGTHS[length](lent[k])
            lengths[SLICES[name][k]] = length
        return lent, lengths

    # ---- damage
    def damage(self, good):
        """(its kind, the bytes of a book after it, which are not what they were)"""
        while True:
            kind = self.rng.choice(DAMAGE)
            data = self.damaged(kind, bytearray(good))
            if data != good:
                return kind, data

    def damaged(self, kind, data):
        r = self.rng
        words = struct.unpack_from('<%dq' % WORDS, data)
        journal = r.choice([w for w in range(SLOTS_AT, MATRIX_AT) if words[w]] or [SLOTS_AT])       # a word that an undo restores
        filled = [PLACES_AT + 14 * p for p in range(PLACES) if words[PLACES_AT + 14 * p]] or [PLACES_AT]

        def put(w, v):
            struct.pack_into('<q', data, 8 * w, min(v, 2 ** 63 - 1))
        if kind == 'cut short':
            return bytes(data[:r.choice(SHORT + [r.randrange(BYTES)])])
        if kind == 'a bit':
            data[8 * r.choice([journal, r.randrange(WORDS)]) + r.choice([0, 0, 1, 2, 7])] ^= 1 << r.randrange(8)
        elif kind == 'a word':
            put(r.choice([journal, r.randrange(WORDS)]), r.choice(EXTREME))
        elif kind == 'a head':
            put(r.choice([0, 1, NEXT_AT, COUNT_AT, r.randrange(2, PLACES_AT), SLOTS_AT + 15 * r.randrange(SLOTS)]), r.choice([0, 1, 2, 3, 4, 5, 63, 64, 65, 255, 256, -1]))
        elif kind == 'a journal word':
            put(journal, words[journal] + r.choice([-1, 1, 100, 200_000]))
        elif kind in LAYOUTS_BEFORE:
            put(0, LAYOUTS_BEFORE[kind])
        elif kind in OTHER_WORDS:
            of, which, values = OTHER_WORDS[kind]
            starts = [PLACES_AT + 14 * p for p in range(PLACES)] + [SLOTS_AT + 15 * k + 1 for k in range(SLOTS)]
            records = [at for at in starts if words[at] == of]
            if records:
                at = r.choice(records) + r.choice(which)
                put(at, r.choice([*values, words[at] - 1, words[at] + 1]))
        else:
            a, b = 8 * r.choice(filled), 8 * r.choice([*filled, PLACES_AT + 14 * r.randrange(PLACES)])
            data[a:a + 112], data[b:b + 112] = data[b:b + 112], data[a:a + 112]
        return bytes(data)
