"""Salvage on the static library, from a fixed seed: the answer and every byte of every lent slice against the independent implementation in tests/reference. Each word of an entry changed
alone, with its sum wrong and right; each bit flipped; a file cut at each byte, moved by each number of bytes, and with each number of bytes between its entries; right entries that lie
over each other; random files damaged in each way of broken_transfers.py and of damaged_files.py; files of 10,000 entries; the one in docs/FILES.md. Each is salvaged in rooms of just the
bytes, in longer ones and in those that always suffice, and with each of the four rooms too short, by a byte and by more, and all of them: then not a byte is written. What is written
reads, and comes out unchanged itself. Files of books are salvaged and entered on a new book. Files beyond 65,536 bytes are the large ones alone, and none is beyond 2^32. Fails too where it
meets less than coverage.py asks. Prints 'N passed, M failed' last.

    python3 tests/host/salvage_calls.py LIBRARY.so
"""
import itertools
import re
import sys

from coverage import SALVAGES
from expected import SALVAGE, entering, packed, words_in
from file_calls import KINDS, WORKED, WORKED_ENTRIES, Files
from library import Buffer, Header, Library
from broken_transfers import BROKEN, OVERLAPS
from damaged_files import DAMAGE, EXTREME, PREVIOUS, START, SUM, changed, entries as any_entries
from salvage import STEP, Salvaged, faults, most_room, words_at
import files

TIMES, OVERLAID, BOOKS = 110, 12, 60      # random files of each way of damage, overlaps by each number of words, books
LARGE = 10_000                            # entries of the largest files
SLICES = ('fresh', 'skipped', 'kept', 'counts')      # what is written on
BEYOND = (1, 7, 8, 16, 128, 200)          # bytes of room more than asked
WAYS = {**BROKEN, **DAMAGE}
THREE = files.write([(files.BASELINE, 9, 1, 2, 10, -20, 30, 100, 3, -2, 120, 1, 90), (files.HEIGHT_DIFFERENCE, 256, 2, 1, 0, 0, -30, 0, 0, 0, 0, 0, 100), (files.STRIKE, 1, *[0] * 11)])


def came_of(data, found):
    if not data:
        return 'no bytes'
    return 'nothing kept' if not found.kept else 'nothing skipped' if not found.skipped else 'both'


def where(run, length):
    """Where a run of skipped bytes lies in a file of that length."""
    start, end = run[0] == 0, sum(run) == length
    return 'the whole' if start and end else 'at the start' if start else 'at the end' if end else 'between'


class Salvages(Files):
    # ---- one call, and one file in every room
    def salvage(self, data, found, background, rooms, behind=b''):
        """The call with so many bytes lent of each background, against what the reference found in the data. Gives the number. The bytes behind the data are not lent."""
        number, written = found.answer(rooms)
        got = self.call(SALVAGE, Buffer(data + behind, len(data)), *map(Buffer, background, rooms))
        self.compare(SALVAGE, got, number, [data, *(front + lent[len(front):room] for front, lent, room in zip(written, background, rooms))])
        return number

    def refused(self, data, found, background, asked):
        """Each room that is not empty a byte short and by more, the others as asked; then all of them."""
        short = [[n - 1, self.rng.randrange(n)] if n else [] for n in asked]
        for k, name in enumerate(SLICES):
            for room, by in zip(short[k], ('a byte', 'more')):
                number = self.salvage(data, found, background, [*asked[:k], room, *asked[k + 1:]])
                self.coverage.note('room for %s' % name, '%s short: %d' % (by, number))
        self.coverage.note('room', 'all short: %d' % self.salvage(data, found, background, [min(rooms, default=0) for rooms in short]))

    def every_room(self, data):
        """The file salvaged in rooms that suffice and in those that do not. Gives what the reference found."""
        r, found = self.rng, Salvaged(data)
        asked, most = [len(front) for front in found.written()], most_room(len(data))
        background = [r.randbytes(max(pair) + BEYOND[-1]) for pair in zip(asked, most)]
        longer = [n + r.choice(BEYOND) for n in asked]
        for name, rooms in (('as asked', asked), ('longer', longer), ('most', most), ('one longer', [longer[0], *asked[1:]])):
            self.coverage.note('room', '%s: %d' % (name, self.salvage(data, found, background, rooms)))
        self.refused(data, found, background, asked)
        self.tiles(data, found)
        self.note_found(data, found)
        return found

    def tiles(self, data, found):
        """Kept entries and skipped runs are the bytes of the file, each once, and no run begins where another ends: of the reference, to which the library was compared."""
        parts = sorted([(start, start + length, True) for start, length in found.skipped] + [(start, start + 128, False) for start, _ in found.kept])
        ends = [0, *(end for _, end, _ in parts)]
        self.same('starts and ends of kept and skipped parts', [start for start, _, _ in parts] + [len(data)], ends)
        self.same('runs that follow runs', sum(a[2] and b[2] for a, b in zip(parts, parts[1:])), 0)

    def fresh_again(self, found):
        """The fresh file reads, and comes out unchanged with no skipped run."""
        self.same('a fresh file reads', self.check_file(found.fresh), True)
        again = Salvaged(found.fresh)
        self.same('a fresh file salvaged', (again.fresh, again.skipped), (found.fresh, []))
        asked = [len(front) for front in again.written()]
        self.salvage(found.fresh, again, [self.rng.randbytes(n + BEYOND[-1]) for n in asked], asked)

    # ---- what was met
    def note_found(self, data, found):
        self.coverage.note('kept entries', min(len(found.kept), 3))
        self.coverage.note('skipped runs', min(len(found.skipped), 3))
        for run in found.skipped:
            self.coverage.note('runs', '%s, %s' % (where(run, len(data)), 'of whole words' if run[1] % 8 == 0 else 'of other bytes'))
            self.coverage.note('lengths of runs', 'less than a word' if run[1] < 8 else 'less than an entry' if run[1] < 128 else 'an entry or more')
        for start, _ in found.kept:
            words = words_at(data, start)
            placed = words[START] == start and words[PREVIOUS] == (start - 24 if start else files.NO_PREVIOUS)
            self.coverage.note('kept, by kind', '%s, its trailer %s' % (KINDS[words[files.KIND]], 'right' if placed else 'wrong'))
            self.coverage.note('kept, by start', 'at a multiple of 128' if start % 128 == 0 else 'between')

    def note_steps(self, data, found):
        """What is wrong at each step that is not kept."""
        for start, length in found.skipped:
            for at in range(start, start + length, STEP):
                words = words_at(data, at)
                wrong = ['too few bytes'] if words is None else faults(words)
                self.coverage.note('steps not kept', wrong[0] + ' alone' if len(wrong) == 1 else 'several things')

    def note_within(self, data, found):
        """By how many words right entries start after a kept one over which they lie."""
        for (start, _), by in itertools.product(found.kept, range(1, 16)):
            words = words_at(data, start + STEP * by)
            if words is not None and not faults(words):
                self.coverage.note('right entries within a kept one, by words', by)

    # ---- files of three entries
    def each_word(self):
        """Each word of the first, a middle and the last entry, of each kind, changed to each of some values, with its sum as it was and mended."""
        for kind, k, word in itertools.product(KINDS, range(3), range(16)):
            data = files.write([(kind, 7, *[v if i in files.USED[kind] else 0 for i, v in enumerate((3, 4, 10, -20, 30, 100, 1, -2, 110, 3, 120), 2)])] * 3)
            for value, mended in itertools.product(EXTREME, (False, True) if word < SUM else (False,)):
                other = changed(data, k, word, value, mended)
                if other != data:
                    found = self.every_room(other)
                    self.note_steps(other, found)
                    what = 'word %d of a %s, its sum %s' % (word, KINDS[kind], 'right' if mended else 'wrong')
                    self.coverage.note(what, 'kept' if len(found.kept) == 3 else 'skipped')

    def each_bit(self):
        """Each bit flipped: that entry is skipped, and the two others are kept."""
        for bit in range(8 * len(THREE)):
            flipped = bytearray(THREE)
            flipped[bit // 8] ^= 1 << bit % 8
            found = Salvaged(bytes(flipped))
            asked = [len(front) for front in found.written()]
            self.salvage(bytes(flipped), found, [self.rng.randbytes(n + 8) for n in asked], asked)
            self.coverage.note('each bit flipped', 'its entry skipped alone' if found.skipped == [(bit // 1024 * 128, 128)] else 'otherwise')

    def each_length(self):
        """A file cut at each byte, also where the rest of it stands behind and is not lent; with each number of bytes before it, and between its entries, up to more than an entry."""
        for n in range(len(THREE) + 1):
            data, rest = THREE[:n], THREE[n:]
            found = self.every_room(data)
            most = most_room(n)
            self.salvage(data, found, [self.rng.randbytes(room) for room in most], most, rest)
            self.coverage.note('cut at each byte', came_of(data, found))
        for n in range(140):
            for name, data in (('moved by each number of bytes', bytes(n) + THREE), ('each number of bytes between', bytes(n).join((THREE[:128], THREE[128:256], THREE[256:])))):
                self.coverage.note(name, came_of(data, self.every_room(data)))

    def tightest(self):
        """14 entries with 8 bytes before, between and after them: as many runs as the room that always suffices has pairs for."""
        entries = any_entries(self.rng, 14, range(1, 257))
        data = bytes(8).join([b'', *(files.write([entry]) for entry in entries), b''])
        found = self.every_room(data)
        self.same('the most runs', 16 * len(found.skipped), most_room(len(data))[1])

    # ---- entries over each other
    def overlaps(self):
        """Right entries that lie over each other, after two entries and before a third, by each number of words: the one that starts first is kept, and of the others those that start behind
        it."""
        for name, (make, offsets) in OVERLAPS.items():
            for by, _ in itertools.product(offsets, range(OVERLAID)):
                words = make(self.rng, by)
                data = THREE[:256] + packed(words) + THREE[256:]
                found = self.every_room(data)
                self.note_within(data, found)
                starts = {start - 256 for start, _ in found.kept} & {0, STEP * by, 128}
                self.coverage.note(name, 'kept: ' + ', '.join('first' if at == 0 else 'next' if at == STEP * by else 'third' for at in sorted(starts)))

    # ---- random files
    def random_file(self, way):
        """A whole file, which comes out unchanged, and what the damage leaves of it."""
        r = self.rng
        data = files.write(any_entries(r, r.choice((2, 2, 3, r.randint(4, 14), r.randint(15, 30))), range(1, 257)))
        found = Salvaged(data)
        self.same('a whole file', (found.fresh, found.skipped), (data, []))
        self.fresh_again(found)
        bad = WAYS[way](r, data)
        found = self.every_room(bad)
        self.fresh_again(found)
        self.note_steps(bad, found)
        if 'add up' in way:
            self.note_within(bad, found)
        self.coverage.note(way, came_of(bad, found))

    def large(self):
        """Files of 10,000 entries: whole, damaged in many spots, of some of them out of step for a while, and so many bytes of 1 in each word, and of noise."""
        r = self.rng
        data = files.write(any_entries(r, LARGE, range(1, 257)))
        holed = bytearray(data)
        for _ in range(LARGE // 50):
            at, lost, more = r.randrange(len(holed)), *r.choice(((1, 1), (8, 0), (0, 8), (300, 300), (128, 0), (0, 64)))
            holed[at:at + lost] = r.randbytes(more)
        for at in r.sample(range(len(holed) - 10_000), 10):
            holed[at:at + 3] = b''
            holed[at + 8000:at + 8000] = r.randbytes(3)
        for name, bad in (('whole', data), ('damaged', bytes(holed)), ('of ones', (1).to_bytes(8, 'little') * (16 * LARGE)), ('noise', r.randbytes(len(data)))):
            found = self.every_room(bad)
            self.coverage.note('large files', '%s: %s' % (name, came_of(bad, found)))
            if name == 'damaged':
                self.coverage.note('a large damaged file', 'entries', len(found.kept))
                self.coverage.note('a large damaged file', 'runs', len(found.skipped))
                self.fresh_again(found)

    # ---- the document
    def document(self):
        """The words that docs/FILES.md prints of its file after a loss of 8 bytes are all that are written on the counts and the lists, and of the fresh file its start and all that are
        not 0."""
        with open(WORKED, encoding='utf-8') as page:
            lines = re.findall(r'^ +(%s) +(\d+) +(-?\d+)\b' % '|'.join(SLICES), page.read(), re.MULTILINE)
        whole = files.write(WORKED_ENTRIES)
        found = self.every_room(whole[:56] + whole[64:])
        words = {(name, 8 * k): word for name, front in zip(SLICES, found.written()) for k, word in enumerate(words_in(front))}
        told = {at: word for at, word in words.items() if at[0] != 'fresh' or word or at[1] == 8 * START}
        self.same('the words in docs/FILES.md', {(name, int(at)): int(word) for name, at, word in lines}, told)
        self.coverage.note('words in docs/FILES.md', 'compared', len(lines))

    # ---- books
    def book(self):
        """The file of a book comes out unchanged. Damaged, it is salvaged, and what is entered of it on a new book of the same stations is what the kept entries are."""
        r = self.rng
        book, model = self.new_book()
        self.enter_file(book, model, self.file_for(model, 30), 8 * 30)
        data = self.write(book, model, 128 * len(model.records))
        found = self.every_room(data)
        self.same('the file of a book', (found.fresh, found.skipped), (data, []))
        bad = BROKEN[r.choice(list(BROKEN))](r, data) if len(data) >= 256 else data[:-1]
        found = self.every_room(bad)
        salvaged, by_file = self.opened(model.rows)
        self.enter_file(salvaged, by_file, found.fresh, 8 * len(found.kept))
        one_by_one, by_calls = self.opened(model.rows)
        for entry in found.entries:
            place, record = entry[files.PLACE], files.record_in(entry)
            self.edit(one_by_one, by_calls, *(entering(place, record) if record else ('strike', [place])))
        self.same('the book that a salvaged file is entered on', salvaged.get(), one_by_one.get())
        self.coverage.note('files of books', came_of(bad, found))

    # ---- all
    def header(self):
        header = Header()
        self.same('the counts in the header', header.constants.get('SALVAGE_COUNTS_BYTES'), most_room(0)[3])
        for n in (*range(1025), 128 * LARGE - 1, 128 * LARGE):
            self.same('the lists in the header, of %d bytes' % n, header.of_length('SALVAGE_LIST_BYTES', n), most_room(n)[1])

    def run(self):
        self.header()
        self.document()
        self.each_word()
        self.each_bit()
        self.each_length()
        self.tightest()
        self.overlaps()
        for _, way in itertools.product(range(TIMES), WAYS):
            self.random_file(way)
        for _ in range(BOOKS):
            self.book()
        self.large()


if __name__ == '__main__':
    Salvages(Library(sys.argv[1]), 20261207).report(SALVAGES)
