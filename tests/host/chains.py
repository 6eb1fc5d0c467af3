"""Test 2 of a check on the static library, from a fixed seed: whether it is refused with 11, and with which unknown, against tests/reference, which joins sets of stations and knows
nothing of places. Lines of up to 32 stations whose records stand in such an order that a search through the places, by rising number, needs each number of passes up to 31; trees, and
records between any stations. Chains that end at a known station, at one that is held in E and N alone, and at a position, which stands before the records of its station or after them;
stations that are tied in U alone, by height differences, and in E and N alone. Then each network with a record less, with another one or with one more. Fails too where it meets less than
coverage.py asks. Prints 'N passed, M failed' last.

    python3 tests/host/chains.py LIBRARY.so
"""
import sys

from comparison import Edits
from coverage import CHAINS
from expected import check, edit_given, entering, packed
from layout import PLACES
from library import Buffer, Header, Library
import kinds
import survey

LINES, TREES, SCATTERED = 1000, 300, 400   # networks
CHANGES = 4                                # of each
MOST_STATIONS, MOST_UNKNOWNS = 32, 48
HEADER = {'UNTIED': 11, 'LARGE_CORRECTION': 12}      # what it must say
LARGE = 100_001                            # a correction that test 3 refuses


def chain_ends(net, records, c):
    """The stations where a chain in the component may end."""
    held = {s for s in range(1, len(net.stations) + 1) if not net.at(s).unknown(c)}
    return held | {r.station for r in records.values() if isinstance(r, survey.Position)}


def joins(records, c):
    """The pairs of stations that a record acting in the component joins, by rising place."""
    return [(r.start, r.end) for _, r in sorted(records.items()) if c in r.components and not isinstance(r, survey.Position)]


def chain_lengths(net, records, c):
    """For each station with a chain in the component the records of the shortest one: breadth first, from where chains end."""
    lengths = dict.fromkeys(chain_ends(net, records, c), 0)
    neighbours = {}
    for a, b in joins(records, c):
        neighbours.setdefault(a, set()).add(b)
        neighbours.setdefault(b, set()).add(a)
    last = set(lengths)
    while last:
        last = {t for s in last for t in neighbours.get(s, ()) if t not in lengths}
        lengths.update(dict.fromkeys(last, max(lengths.values()) + 1))
    return lengths


def passes(net, records, c):
    """How often a search that goes through the records by rising place finds a station more in doing so."""
    found, pairs = chain_ends(net, records, c), joins(records, c)
    for k in range(MOST_STATIONS + 1):
        before = len(found)
        for a, b in pairs:
            if a in found or b in found:
                found |= {a, b}
        if len(found) == before:
            return k
    raise AssertionError('more stations than there are')


class Chains(Edits):
    def edit(self, book, model, name, numbers):
        """An edit without the bytes that it leaves, which other tests compare: to work them out each time would take most of the time here."""
        result = self.call(name, book, *numbers)[0]
        self.same(name, result, model.edit(*edit_given(name, numbers)))
        return result

    def ask(self, book, model):
        """Whether every unknown has its chain, by a check that is refused with 11 where one has none, and else with 12."""
        n = model.net.n
        x, m = packed([LARGE] + [0] * (n - 1)), bytes(8 * n * n)
        got, (result, _) = self.call('check', book, Buffer(x), Buffer(m)), check(model, x, m)
        self.compare('check', got, result, got[1])
        self.note(model.net, model.records, result)
        return result == 12

    # ---- what was met
    def note(self, net, records, result):
        lengths = [chain_lengths(net, records, c) for c in range(3)]
        for c in range(3):
            self.same('the stations with a chain', set(lengths[c]), survey.tied(net, records, c))
        tied = 'all tied' if result == 12 else 'not all tied'
        self.coverage.note('stations in the list, ' + tied, len(net.stations))
        for c in (0, 2):                   # what acts in E acts in N, and what is held
            self.coverage.note('passes in %s that find a station, %s' % ('ENU'[c], tied), passes(net, records, c))
            self.coverage.note('records of the longest chain in ' + 'ENU'[c], max(lengths[c].values(), default=0))
        self.note_stations(net, lengths)
        self.note_positions(net, records)
        if result != 12:
            self.note_unknown(net, lengths, result // 256 - 1)

    def note_stations(self, net, lengths):
        for number, station in enumerate(net.stations, 1):
            if station.kind != survey.KNOWN:
                self.coverage.note('stations that are %s, tied in' % kinds.STATIONS[station.kind], self.tied_in(net, lengths, number))

    def tied_in(self, net, lengths, number):
        return ''.join('ENU'[c] for c in range(3) if net.at(number).unknown(c) and number in lengths[c]) or 'none'

    def note_unknown(self, net, lengths, index):
        """The unknown of 11 by its component, and by the others of its station."""
        number, c = next(key for key, k in net.index.items() if k == index)
        self.coverage.note('the station of 11', number)
        self.coverage.note('the unknown of 11', '%s, its station tied in %s' % ('ENU'[c], self.tied_in(net, lengths, number)))

    def note_positions(self, net, records):
        """Positions without which their station would not be tied in U, by where they stand among its other records."""
        for place, r in records.items():
            others = {p: v for p, v in records.items() if p != place}
            if isinstance(r, survey.Position) and r.station not in survey.tied(net, others, 2):
                at = [p for p, v in others.items() if r.station in dict(v.ends)]
                where = 'alone' if not at else 'before them' if place < min(at) else 'after them' if place > max(at) else 'between them'
                self.coverage.note('a position that ties its station, among the records there', where)

    # ---- stations and records
    def adjusted_kinds(self, count, free):
        """Kinds of so many stations that are not known, this share of them free, as far as 48 unknowns allow."""
        left, made = MOST_UNKNOWNS - count, []
        for _ in range(count):
            made.append(survey.FREE if left >= 2 and self.rng.random() < free else survey.HEIGHT)
            left -= 2 * (made[-1] == survey.FREE)
        return made

    def some_kinds(self, count, known):
        """Kinds of so many stations, this share of them known, but not all."""
        adjusted = max(1, sum(self.rng.random() >= known for _ in range(count)))
        made = self.adjusted_kinds(adjusted, self.rng.choice([0, 0.5, 1])) + [survey.KNOWN] * (count - adjusted)
        return self.rng.sample(made, count)

    def joining(self, net, a, b, levels):
        """A record from one of the two stations to the other: in this share of cases a height difference, else a baseline."""
        return self.arguments.by_the_rules(net, 'height' if self.rng.random() < levels else 'baseline', *self.rng.sample((a, b), 2), 300)

    def position(self, net, stations):
        """At one of the stations."""
        return self.arguments.by_the_rules(net, 'position', None, self.rng.choice(stations), 300)

    def places(self, count):
        """So many, by rising number; often with the first or the last one."""
        found = set(self.rng.sample((1, PLACES), self.rng.randint(0, min(2, count))))
        while len(found) < count:
            found.add(self.rng.randint(1, PLACES))
        return sorted(found)

    def book(self, of, make):
        """(the library's bytes, the model) of a book over stations of these kinds. The records that `make` gives stand in their order at places of rising number."""
        book, model = self.opened([(kind, *(self.rng.randint(-300_000, 300_000) for _ in range(3))) for kind in of])
        made = make(model.net)
        entries = list(zip(self.places(len(made)), made))
        for place, r in self.rng.sample(entries, len(entries)):
            self.put(book, model, place, r)
        return book, model

    # ---- networks
    def line(self):
        """Stations in a line, by rising number or in any order; the first is known or may have a position."""
        r = self.rng
        free, known = r.choice([0, 0, 0.3, 1, 1]), r.random() < 0.5
        most = min(MOST_STATIONS, MOST_UNKNOWNS // 3 + known) if free == 1 else MOST_STATIONS
        count = r.choice([r.randint(2, most), most])
        numbers = r.choice([range(1, count + 1), r.sample(range(1, count + 1), count)])
        of = dict(zip(numbers, [survey.KNOWN] * known + self.adjusted_kinds(count - known, free)))
        return self.book([of[number] for number in range(1, count + 1)], lambda net: self.line_records(net, numbers, known))

    def line_records(self, net, numbers, known):
        """In an order in which each pass finds one run of stations; one may be missing, some are there several times."""
        r = self.rng
        levels, times = r.choice([0, 0, 0, 0.1, 1]), r.choice([1, 1, 2, 8])
        links = self.by_runs([self.joining(net, a, b, levels) for a, b in zip(numbers, numbers[1:])])
        if r.random() < 0.3:
            links.remove(r.choice(links))
        made = [link for link in links for _ in range(r.randint(1, times))]
        if not known and r.random() < 0.9:
            made.insert(r.choice([0, len(made), r.randint(0, len(made))]), self.position(net, numbers[:1]))
        return made

    def by_runs(self, links):
        """The links of a line, cut into runs, the last run first."""
        r = self.rng
        runs = r.choice([r.randint(1, len(links)), len(links)])
        starts = [0, *sorted(r.sample(range(1, len(links)), runs - 1)), len(links)]
        return [link for a, b in reversed(list(zip(starts, starts[1:]))) for link in links[a:b]]

    def tree(self):
        """Every station but the first is joined to one before it, near or far; the records stand in this order, the other way round or in any."""
        r = self.rng
        count = r.randint(2, MOST_STATIONS)
        numbers = r.sample(range(1, count + 1), count)
        near, levels, positions = r.choice([1, 2, 5, MOST_STATIONS]), r.choice([0, 0.3, 1]), r.choice([0, 1, 1, 2])

        def records(net):
            made = [self.joining(net, numbers[r.randint(max(0, k - near), k - 1)], numbers[k], levels) for k in range(1, count)]
            made += [self.position(net, numbers) for _ in range(positions)]
            return r.choice([made, made[::-1], r.sample(made, len(made))])
        return self.book(self.some_kinds(count, r.choice([0, 0.05, 0.3])), records)

    def scattered(self):
        """Few or many records between any stations; positions among them or at the last places."""
        r = self.rng
        count = r.choice([1, 2, 3, r.randint(1, MOST_STATIONS), MOST_STATIONS])
        numbers = range(1, count + 1)
        levels, many, positions = r.choice([0, 0.5, 1]), r.choice([0.7, 1.2, 2]), r.choice([0, 0, 1, 3])

        def records(net):
            made = [self.joining(net, *r.sample(numbers, 2), levels) for _ in range(r.randint(0, int(many * count)) if count > 1 else 0)]
            made += [self.position(net, numbers) for _ in range(positions)]
            return r.choice([made, r.sample(made, len(made))])
        return self.book(self.some_kinds(count, r.choice([0, 0.1, 0.5])), records)

    # ---- changes
    def change(self, book, model, tied):
        """A strike, another record between the same stations, a position more, or an undo, and the check after it. Returns whether all are tied then."""
        r = self.rng
        filled = sorted(model.records)
        what = r.choice(('a strike', 'a strike', 'another record', 'a position more', 'an undo')) if filled else 'a position more'
        place = r.choice([filled[0], filled[-1], r.choice(filled)]) if filled else 1
        before = model.records.get(place)
        if what == 'a strike':
            self.edit(book, model, 'strike', [place])
        elif what == 'an undo':
            self.edit(book, model, 'undo', [])
        elif what == 'another record':
            self.put(book, model, place, self.another(model.net, before))
        else:
            self.put(book, model, r.choice([1, PLACES, r.randint(1, PLACES)]), self.position(model.net, range(1, len(model.rows) + 1)))
        after = self.ask(book, model)
        self.note_change(what, place, before, (tied, after))
        return after

    def another(self, net, before):
        """A height difference in place of a baseline and the other way round; a position at another station."""
        if isinstance(before, survey.Position):
            return self.position(net, range(1, len(net.stations) + 1))
        return self.joining(net, before.start, before.end, 0 if isinstance(before, survey.Level) else 1)

    def note_change(self, what, place, before, tied):
        change = '%s to %s' % tuple('tied' if v else 'not tied' for v in tied)
        self.coverage.note(what, change)
        if what == 'a strike' and tied == (True, False):
            self.coverage.note('what alone tied a station', '%s at %s' % (kinds.RECORDS[type(before)], place if place in (1, PLACES) else 'a place between'))

    def run(self):
        constants = Header().constants
        for name, want in HEADER.items():
            self.same('%s in the header' % name, constants.get(name), want)
        for make, count in ((self.line, LINES), (self.tree, TREES), (self.scattered, SCATTERED)):
            for _ in range(count):
                book, model = make()
                tied = self.ask(book, model)
                self.coverage.note('networks', '%s, %s' % (make.__name__, 'tied' if tied else 'not tied'))
                for _ in range(CHANGES):
                    tied = self.change(book, model, tied)


if __name__ == '__main__':
    Chains(Library(sys.argv[1]), 20261120).report(CHAINS)
