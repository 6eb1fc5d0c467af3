"""Antenna heights on the static library, from a fixed seed: every answer and every byte of the book against the independent implementation in tests/reference. Among the stations
are such at both ends of the range of U, so that the observed and the reduced U difference come to their limits, to either side of them, together and apart; and so do the
misclosures of both. Heights at their limits and far beyond. A record that is entered is read back, and most are undone at once, which leaves every byte as it was. In the end the same
records from mark to mark, without heights, give the same N and u, and the same sheet. Heights of records that the journal would restore are changed in the bytes. Fails too where it meets less than coverage.py asks. Prints 'N passed, M failed' last.

    python3 tests/host/heights.py LIBRARY.so
"""
from dataclasses import replace
import struct
import sys

from comparison import Edits
from coverage import HEIGHTS
from expected import packed, words_in
from layout import HEIGHTS_AT, MATRIX_AT, SLOTS, SLOTS_AT, record_of
from library import Buffer, Header, Library
import antennas
from antennas import MOST, NEAR
import kinds
import survey

BOOKS = 30
AT_LIMITS = 60                             # baselines of each book at the limits of the differences, and as many at those of the misclosures
END = 500_000_000                          # of the range of coordinates
FAR = (-2 ** 63, -2 ** 63 + 1, -2 ** 62, 2 ** 62, 2 ** 63 - 2, 2 ** 63 - 1)      # heights and differences
HEADER = {'OUT_OF_RANGE': 4, 'BAD_MISCLOSURE': 6, 'HEIGHT_ABOVE_MARK_MAX': MOST}      # what it must say
UPS = (-END, END, -END, END, 0, 70_000)    # U of the stations
LAST = 256                                 # the place that the baselines are entered at; the network is at the first ones


class Heights(Edits):
    # ---- baselines
    def baseline(self, net, ends, up, heights):
        """From the first end to the second, near the provisional differences in E and N."""
        start, end = ends
        r = self.rng
        plain = survey.Baseline(start, end, (0, 0, 0), (r.randint(50, 900), r.randint(-9, 9), r.randint(-9, 9), r.randint(50, 900), r.randint(-9, 9), r.randint(50, 900)), heights)
        return replace(plain, observed=(*(net.provisional(plain, c) + r.randint(-300, 300) for c in (0, 1)), up))

    def at_differences(self, net):
        """Between the ends of the range of U, upwards or downwards."""
        low, high = (self.rng.choice([k for k, up in enumerate(UPS, 1) if up == end]) for end in (-END, END))
        ends, limit = self.rng.choice([((low, high), survey.MOST_DIFFERENCE), ((high, low), -survey.MOST_DIFFERENCE)])
        return self.baseline(net, ends, *antennas.beside(self.rng, limit))

    def at_misclosures(self, net):
        """Between stations whose U difference is well within the limits of 4."""
        ends = self.rng.sample([k for k, up in enumerate(UPS, 1) if abs(up) < END], 2)
        limit = net.at(ends[1]).up - net.at(ends[0]).up + self.rng.choice([-1, 1]) * survey.MOST_MISCLOSURE
        return self.baseline(net, ends, *antennas.beside(self.rng, limit))

    def with_heights(self, net, heights):
        """A baseline with these heights, whose reduced U difference is near the provisional one where the observed one can make it so."""
        r = self.rng
        start, end = r.sample(range(1, len(UPS) + 1), 2)
        up = net.at(end).up - net.at(start).up + r.randint(-300, 300) - heights[0] + heights[1]
        return self.baseline(net, (start, end), up if abs(up) < 2 ** 63 else r.choice([0, *FAR]), heights)

    def far_difference(self, net):
        """An observed U difference far out of range, with heights by the rules."""
        return self.baseline(net, self.rng.sample(range(1, len(UPS) + 1), 2), self.rng.choice(FAR), self.rng.choice([(0, MOST), (MOST, 0), (1, 0), (0, 1)]))

    # ---- what was met
    def note(self, net, r):
        what = kinds.of_heights(net, r)
        if what is None:
            return
        self.coverage.note('baselines with antenna heights', what)
        self.note_heights(r)
        self.note_differences(net, r)

    def note_heights(self, r):
        """A height near a limit counts where the other one and both differences are within theirs."""
        differences_fit = all(abs(v) <= survey.MOST_DIFFERENCE for v in (r.observed[2], r.reduced[2]))
        for end, h, other in zip(('from', 'to'), r.heights, reversed(r.heights)):
            if h in FAR:
                self.coverage.note('heights far beyond', '%s %d' % (end, h))
            elif h in NEAR and 0 <= other <= MOST and differences_fit:
                self.coverage.note('heights at their limits', '%s %d' % (end, h))

    def note_differences(self, net, r):
        """Differences and misclosures of which both, the observed one and the reduced one, are at most one from the limit; observed differences far beyond."""
        note = self.coverage.note
        if r.observed[2] in FAR:
            note('observed differences far beyond', 'low' if r.observed[2] < 0 else 'high')
        for limits, centre, most in (('differences', 0, survey.MOST_DIFFERENCE), ('misclosures', net.provisional(r, 2), survey.MOST_MISCLOSURE)):
            for limit in (-most, most):
                off = [v - centre - limit for v in (r.observed[2], r.reduced[2])]
                if all(abs(v) <= 1 for v in off):
                    note('%s beside %d' % (limits, limit), 'observed %+d, reduced %+d' % tuple(off))

    # ---- books
    def stations(self):
        r = self.rng
        held_or_not = [survey.KNOWN, *(r.choice([survey.KNOWN, survey.FREE, survey.HEIGHT]) for _ in UPS[2:]), survey.FREE]
        return [(kind, r.randint(-300_000, 300_000), r.randint(-300_000, 300_000), up) for kind, up in zip(held_or_not, UPS)]

    def book(self):
        """A network that ties every station to the first, then the baselines, each over what the one before it left at the last place; and the book from mark to mark."""
        book, model = self.opened(self.stations())
        for number in range(2, len(UPS) + 1):
            reduced = UPS[number - 1] - UPS[0] - self.rng.randint(0, 300)
            observed = reduced - self.rng.randint(0, MOST)
            r = self.baseline(model.net, (1, number), observed, antennas.leading(self.rng, observed, reduced))
            self.put(book, model, number - 1, r)
        asked = [self.with_heights(model.net, (a, b)) for a in NEAR + FAR for b in NEAR + FAR]
        asked += [make(model.net) for make in (self.at_differences, self.at_misclosures) for _ in range(AT_LIMITS)]
        asked += [self.far_difference(model.net) for _ in range(6)]
        self.rng.shuffle(asked)
        for r in asked:
            self.note(model.net, r)
            self.enter(book, model, LAST, r)
        self.from_mark_to_mark(book, model)
        self.in_the_journal(book.get(), model.net)

    def in_the_journal(self, data, net):
        """One height of a record that the journal would restore, one higher or lower in the bytes: a book where the record is still by the rules, else 25."""
        for at in range(SLOTS_AT + 1, SLOTS_AT + 15 * SLOTS, 15):
            r = record_of(struct.unpack_from('<14q', data, 8 * at))
            if not isinstance(r, survey.Baseline):
                continue
            for end, step in ((0, -1), (0, 1), (1, -1), (1, 1)):
                heights = tuple(h + step * (k == end) for k, h in enumerate(r.heights))
                damaged = bytearray(data)
                struct.pack_into('<q', damaged, 8 * (at + HEIGHTS_AT + end), heights[end])
                changed = replace(r, heights=heights)
                want = 25 if survey.record_number(net, changed) else 0
                self.same('a height in the journal', self.call('unknowns', Buffer(bytes(damaged)))[0] % 256, want)
                self.coverage.note('a height in the journal', kinds.of_heights(net, changed) or 'no heights left')

    def from_mark_to_mark(self, book, model):
        """The same records with their reduced differences and no heights: the same N, u and sheet, by the library alone."""
        other, marks = self.opened(model.rows)
        for place, r in sorted(model.records.items()):
            reduced = replace(r, observed=r.reduced, heights=(0, 0))
            self.put(other, marks, place, reduced)
            self.coverage.note('from mark to mark', kinds.of_place(r))
        self.same('N and u from mark to mark', other.get()[8 * MATRIX_AT:], book.get()[8 * MATRIX_AT:])
        x, m = map(packed, self.arguments.exact(model))
        sheets = [Buffer(bytes(8 * survey.sheet_room(model.net, model.records))) for _ in range(2)]
        for lent, sheet in zip((book, other), sheets):
            self.same('check_sheet', self.call('check_sheet', lent, Buffer(x), Buffer(m), sheet)[0], 0)
        self.same('the sheet from mark to mark', sheets[1].get(), sheets[0].get())
        self.same('the sheet', words_in(sheets[0].get()), survey.sheet(model.net, model.records, words_in(x), words_in(m)))

    def run(self):
        constants = Header().constants
        for name, want in HEADER.items():
            self.same('%s in the header' % name, constants.get(name), want)
        for _ in range(BOOKS):
            self.book()


if __name__ == '__main__':
    Heights(Library(sys.argv[1]), 20261118).report(HEIGHTS)
