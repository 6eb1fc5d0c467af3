"""Files of entries on the static library, from a fixed seed: every answer and every byte of every lent slice against the independent implementation in tests/reference. Each word of an
entry changed alone, with its sum wrong and right; each bit flipped; random files of any entries, whole and damaged in each way of damaged_files.py; the entry in force in each case of
two files. Books written in rooms of just the bytes, fewer and more, with a record that no file carries at any place, and damaged; files entered among other edits and undos, whole,
damaged and with too few answers; each set of refusals that apply. What is written and entered on a new book of the same stations gives the same records, N and u. Files of 10,000
entries, and the one that docs/FILES.md prints. Fails too where it meets less than coverage.py asks. Prints 'N passed, M failed' last.

    python3 tests/host/file_calls.py LIBRARY.so
"""
from dataclasses import replace
import itertools
import os
import re
import sys

from comparison import Edits
from coverage import FILES
from expected import FILE_CALLS, NO_BOOK, edit_given, entering, outcome, packed
from layout import BYTES, MATRIX_AT, NEXT_AT, PLACES, PLACES_AT, judge
from library import Buffer, Header, Library
from damaged_files import DAMAGE, EXTREME, PREVIOUS, START, SUM, changed, damaged, entries as any_entries, rows as rows_of
import files
import survey

PAIRS, BOOKS, STEPS, TURNS = 2400, 80, 24, 6      # random pairs of files, random books and what is done on each, turns of each set of refusals
COUNTS = (0, 1, 2, 63, 64, 65, 255, 256)  # of records of books that one file fills
LARGE = 10_000                            # entries of the largest files
HEADER = {'ENTRY_BYTES': 128, 'BASELINE_KIND': 1, 'HEIGHT_DIFFERENCE_KIND': 2, 'STRIKE_KIND': 3, 'POSITION_KIND': 4, 'NIGHT': 1, 'DAY': 2, 'BAD_FILE': 18, 'NOT_CARRIED': 19,
          'NO_ENTRY': 20}                 # what it must say
KINDS = {files.BASELINE: 'baseline', files.HEIGHT_DIFFERENCE: 'height difference', files.STRIKE: 'strike'}
ASKED = (0, 1, 256, 257, -1, 2 ** 32 + 1, 2 ** 62, 2 ** 63 - 1, -2 ** 63)      # places at and beyond their limits
FOUND_ROOMS = (0, 1, 8, 15, 16, 17, 24, 200)
ROOMS = {'as asked': 0, 'a byte short': -1, 'an item short': None, 'a byte long': 1, 'an item long': None, 'far longer': 5_000}      # by how many bytes; None: those of an entry or an answer
UNCARRIED = {'a position': None, 'a height at from': (1, 0), 'a height at to': (0, 1), 'two heights': (300_000, 300_000)}      # antenna heights
WORKED = os.path.join(os.path.dirname(os.path.abspath(__file__)), '../../docs/FILES.md')
WORKED_ENTRIES = [files.entry_of(2, survey.Level(2, 3, 124_965, 400)), files.entry_of(4, None)]      # as its text says


def carried(r):
    """The record as a file can carry it: a baseline from mark to mark, where that is a word, without its heights."""
    if not isinstance(r, survey.Baseline):
        return r
    return replace(r, observed=r.reduced if abs(r.reduced[2]) < 2 ** 63 else r.observed, heights=(0, 0))


def room_of(name, asked, item):
    """The bytes of a room of that name; None where there can be none."""
    off = {'an item short': -item, 'an item long': item}.get(name, ROOMS[name])
    return asked + off if asked + off >= 0 else None


class Files(Edits):
    # ---- one call
    def check_file(self, data):
        """Whether the file reads. One that does is the file of its entries."""
        entries = files.read(data)
        self.compare('check_file', self.call('check_file', Buffer(data)), files.BAD_FILE if entries is None else 0, [data])
        if entries is not None:
            self.same('the file of the entries of one that reads', files.write([entry for _, entry in entries]), data)
        return entries is not None

    def in_force(self, night, day, place, room=16):
        lent = self.arguments.bytes(room)
        number, *found = files.in_force(night, day, place, room)
        front = packed(found)
        self.compare('entry_in_force', self.call('entry_in_force', Buffer(night), Buffer(day), place, Buffer(lent)), number, [night, day, front + lent[len(front):]])
        if number == 0:
            self.note_shown(night, day, place, found[0])

    def note_shown(self, night, day, place, which):
        """What was shown, how many entries for the place its file has, and what the other file has latest."""
        has = [[entry for _, entry in files.read(data) if entry[files.PLACE] == place] for data in (night, day)]
        latest = ['nothing' if not v else 'a strike' if v[-1][files.KIND] == files.STRIKE else 'a record' for v in has]
        shown, other = which - 1, 2 - which
        self.coverage.note('shown', '%s of the %s file, the other has %s' % (latest[shown], ('night', 'day')[shown], latest[other]))
        self.coverage.note('entries for the place in the file that is shown', 'one' if len(has[shown]) == 1 else 'several')

    def write(self, book, model, room):
        """The file written, or None."""
        lent = self.arguments.bytes(room)
        got = self.call('write_file', book, Buffer(lent))
        number, data = (NO_BOOK, b'') if model is None else files.write_book(model.records, room)
        self.compare('write_file', got, number or len(data), [got[1][0], data + lent[len(data):]])
        return None if number else data

    def enter_file(self, book, model, data, room):
        """The number of the call; the model, the book in the bytes or None, follows."""
        lent = self.arguments.bytes(room)
        got = self.call('enter_file', book, Buffer(data), Buffer(lent))
        number, answers = (NO_BOOK, []) if model is None else files.enter(data, room, model.edit)
        front = b'' if number else model.bytes()
        self.compare('enter_file', got, number, [front + got[1][0][len(front):], data, packed(answers) + lent[8 * len(answers):]])
        for (_, entry), answer in zip(files.read(data) or [], answers):
            self.coverage.note('answers to entries', '%s: %d' % (KINDS[entry[files.KIND]], answer))
        return number

    # ---- files without books
    def each_word(self):
        """Each word of the first, a middle and the last entry, of each kind, changed to each of some values, with its sum as it was and mended."""
        for kind, k, word in itertools.product(KINDS, range(3), range(16)):
            data = files.write([(kind, 7, *[v if i in files.USED[kind] else 0 for i, v in enumerate((3, 4, 10, -20, 30, 100, 1, -2, 110, 3, 120), 2)])] * 3)
            start = 128 * k
            values = {START: [start + by for by in (-128, -1, 1, 8, 128)], PREVIOUS: [start + by for by in (-152, -128, -25, -24, -23, 0, 104)]}.get(word, [])
            for value, mended in itertools.product({*EXTREME, *values}, (False, True) if word < SUM else (False,)):
                other = changed(data, k, word, value, mended)
                if other != data:
                    what = 'word %d of a %s, its sum %s' % (word, KINDS[kind], 'right' if mended else 'wrong')
                    self.coverage.note(what, 'read' if self.check_file(other) else 'refused')

    def each_bit(self):
        """Each bit of a file of an entry of each kind flipped: none reads, since a flip changes the sum, or what it is compared with, by a power of 2."""
        data = files.write([files.entry_of(9, survey.Baseline(1, 2, (10, -20, 30), (100, 3, -2, 120, 1, 90))), files.entry_of(9, survey.Level(2, 1, -30, 100)), files.entry_of(9, None)])
        for bit in range(8 * len(data)):
            flipped = bytearray(data)
            flipped[bit // 8] ^= 1 << bit % 8
            self.coverage.note('each bit flipped', 'read' if self.check_file(bytes(flipped)) else 'refused')

    def places(self):
        """In an entry, and asked for."""
        for place, kind in itertools.product(ASKED, KINDS):
            reads = self.check_file(files.write([(kind, place, *[0] * 11)]))
            self.coverage.note('places of entries', '%d: %s' % (place, 'read' if reads else 'refused'))
        whole = files.write([(files.STRIKE, place, *[0] * 11) for place in (1, 256, 1, 256)])
        for place, night in itertools.product(ASKED, (whole, b'')):
            self.in_force(night, whole, place)
            self.coverage.note('places asked for', place)

    def pair(self, turn):
        """Two whole files, the entries in force of some places, and both damaged; the kinds of damage take turns."""
        r = self.rng
        places = r.choice([(1, 2, 3), (1, 256), range(1, 13)])
        night, day = whole = [files.write(any_entries(r, r.choice((0, 1, 2, 2, 3, r.randint(4, 14))), places)) for _ in range(2)]
        for data in whole:
            self.check_file(data)
            self.coverage.note('random whole files', min(len(data) // 128, 3))
        for place in {*r.sample(list(places), 2), r.choice(ASKED)}:
            self.in_force(night, day, place, r.choice(FOUND_ROOMS) if r.random() < 0.3 else 16)
        kinds = list(DAMAGE)
        for data, other, is_night in ((night, day, True), (day, night, False)):
            kind = kinds[(2 * turn + is_night) % len(kinds)]
            if len(data) >= 256:
                bad = damaged(r, data, kind)
                self.coverage.note(kind, 'read' if self.check_file(bad) else 'refused')
                self.in_force(*((bad, other) if is_night else (other, bad)), r.choice(places))

    def never_reads(self, data):
        """The file damaged so that it does not read; it still has the bytes of an entry, so that its answers can be too few."""
        while True:
            bad = damaged(self.rng, data, self.rng.choice(list(DAMAGE)))
            if files.read(bad) is None and len(bad) >= 128:
                return bad

    def orders_in_force(self):
        """Each set of refusals that apply to an entry in force."""
        r = self.rng
        for where, bad_place, short, bad_night, bad_day in itertools.product(('neither', 'night', 'day', 'both'), *[(False, True)] * 4):
            if bad_place and where != 'neither':
                continue
            place = r.choice([v for v in ASKED if (1 <= v <= PLACES) != bad_place])
            others = [p for p in range(1, PLACES + 1) if p != place]
            night, day = (files.write(any_entries(r, 4, [place] if where in (name, 'both') else others)) for name in ('night', 'day'))
            self.in_force(self.never_reads(night) if bad_night else night, self.never_reads(day) if bad_day else day, place, r.choice([v for v in FOUND_ROOMS if (v < 16) == short]))
            applies = [name for name, holds in (('2', bad_place), ('10', short), ('18 night', bad_night), ('18 day', bad_day), ('20', where == 'neither')) if holds]
            self.coverage.note('what refuses an entry in force', ', '.join(applies) or 'nothing')

    # ---- books
    def new_book(self):
        """(the library's bytes, some of them longer than a book; the model)"""
        rows = []
        while len(rows) < 2:
            rows = self.arguments.tied_stations(1, 48, self.rng.random() < 0.8)
        book, model = self.opened(rows)
        return Buffer(book.get() + self.arguments.bytes(self.rng.choice((0, 0, 5, 16)))), model

    def file_for(self, model, count):
        """Entries that suit the book: most are accepted, the others near the limits; strikes of filled places and of others."""
        found = []
        for _ in range(count):
            name = self.rng.choice(('enter_baseline', 'enter_height', 'strike'))
            _, place, r = edit_given(name, self.arguments.edit(name, model))
            found.append(files.entry_of(place if 1 <= place <= PLACES else self.rng.randint(1, PLACES), carried(r)))
        return files.write(found)

    def some_edits(self, book, model, plain):
        """A few edits by themselves; of a plain book such as a file can carry."""
        for _ in range(self.rng.randint(1, 4)):
            name = self.rng.choice(('enter_baseline', 'enter_height', 'strike', 'undo', 'undo', *(() if plain else ('enter_position',))))
            numbers = self.arguments.edit(name, model)
            if plain and name == 'enter_baseline':
                numbers = entering(numbers[0], carried(edit_given(name, numbers)[2]))[1]
            self.edit(book, model, name, numbers)

    def some_entries(self, book, model, _):
        """A file entered, whole or damaged, with room for its answers or not; then some of it undone."""
        r = self.rng
        data = self.file_for(model, r.choice((0, 1, 2, 5, 12, 40, 90)))
        if len(data) >= 256 and r.random() < 0.2:
            data = damaged(r, data, r.choice(list(DAMAGE)))
        name = r.choice(list(ROOMS)) if r.random() < 0.5 else 'as asked'
        room = room_of(name, 8 * (len(data) // 128), 8)
        if room is not None:
            number = self.enter_file(book, model, data, room)
            self.coverage.note('room for answers', '%s: %d' % (name, number))
        for _ in range(r.choice((0, 0, 1, 3, 70))):
            if self.edit(book, model, 'undo', []):
                break

    def written(self, book, model, _):
        """The book written in each room."""
        for name in ROOMS:
            room = room_of(name, 128 * len(model.records), 128)
            if room is not None:
                refused = self.write(book, model, room) is None
                self.coverage.note('room for a file', '%s: %s' % (name, 'refused' if refused else 'written'))

    def damaged_book(self, book, model, _):
        """Both calls on damaged bytes of the book: 25 and nothing written, or where they still hold a book what the calls do on that one."""
        data = self.arguments.damage(book.get())[1]
        found = judge(data)
        self.write(Buffer(data), found, 128 * len((found or model).records))
        self.enter_file(Buffer(data), found, self.file_for(found or model, 3), 24)
        self.coverage.note('damaged books', 'read' if found else 'refused')

    def uncarried(self, model, kind):
        """A record by the rules that no file carries."""
        start, end = self.rng.sample(range(1, len(model.rows) + 1), 2)
        if kind == 'a position':
            return self.arguments.by_the_rules(model.net, 'position', start, end, 300)
        r = carried(self.arguments.by_the_rules(model.net, 'baseline', start, end, 300))
        heights = UNCARRIED[kind]
        return replace(r, observed=(*r.observed[:2], r.observed[2] - heights[0] + heights[1]), heights=heights)

    def not_carried(self, book, model):
        """One record more that no file carries, before the others, after them or among them: 10 or 19, and without it the file is written as before."""
        for kind, place in itertools.product(UNCARRIED, (1, self.rng.randint(2, 255), 256)):
            self.put(book, model, place, self.uncarried(model, kind))
            self.written(book, model, False)
            self.coverage.note('not carried', '%s at %s' % (kind, place if place in (1, 256) else 'a place between'))
            self.edit(book, model, 'undo', [])
        self.written(book, model, False)

    def round_trip(self, book, model):
        """The book written and entered on a new one of the same stations: the same records, also through dombrelat_record, N and u; and written again the same file."""
        count = len(model.records)
        data = self.write(book, model, 128 * count)
        other, same = self.opened(model.rows)
        self.same('a written file entered', self.enter_file(other, same, data, 8 * count), 0)
        self.same('the records of a round trip', same.records, model.records)
        for start, end in ((PLACES_AT, NEXT_AT), (MATRIX_AT, BYTES // 8)):
            self.same('words %d to %d of a round trip' % (start, end), other.get()[8 * start:8 * end], book.get()[8 * start:8 * end])
        for place in range(1, PLACES + 1):
            got = self.call('record', other, place, Buffer(bytes(112)))
            self.compare('record', got, 0, [got[1][0], outcome('record', model, [place, bytes(112)])[1]])
        self.same('a round trip written again', self.write(other, same, 128 * count), data)
        self.coverage.note('round trips by records', count if count in COUNTS else 'others')

    def orders_of_books(self, book, model):
        """Each set of refusals that apply to a file written and to one entered, on a book of records that a file carries; for 19 it has one more, which no file carries."""
        for bad_book, short, last in itertools.product((False, True), repeat=3):
            lent, found = Buffer(book.get()), judge(book.get())
            if last:
                self.put(lent, found, 256, self.uncarried(found, 'a position'))
            asked = 128 * len(found.records)
            self.write(self.no_book(lent) if bad_book else lent, None if bad_book else found, asked - (self.rng.choice((1, 128, asked)) if short else 0))
            data = self.file_for(model, 5)
            data = self.never_reads(data) if last else data
            room = 8 * (len(data) // 128)
            self.enter_file(self.no_book(lent) if bad_book else lent, None if bad_book else found, data, room - (self.rng.choice((1, 8, room)) if short else 0))
            for call, number in (('write_file', '19'), ('enter_file', '18')):
                applies = [name for name, holds in (('25', bad_book), ('10', short), (number, last)) if holds]
                self.coverage.note('what refuses %s' % call, ', '.join(applies) or 'nothing')

    def no_book(self, book):
        """Its bytes damaged so that they hold no book."""
        while True:
            data = self.arguments.damage(book.get())[1]
            if judge(data) is None:
                return Buffer(data)

    def part_of_entry(self, book, model):
        """A file with a part of an entry at its end, and answers for the whole ones: 18; for one less a byte: 10."""
        data = self.file_for(model, 6)
        for count, part, short in itertools.product((0, 1, 5), (1, 8, 64, 127), (0, 1)):
            if count or not short:
                number = self.enter_file(book, model, data[:128 * count + part], 8 * count - short)
                self.coverage.note('a part of an entry at the end', number)

    def book(self, plain):
        book, model = self.new_book()
        if plain:
            self.round_trip(book, model)
        for _ in range(STEPS):
            self.rng.choice((self.some_edits, self.some_entries, self.some_entries, self.written, self.damaged_book))(book, model, plain)
        if plain:
            self.put(book, model, 1, carried(self.arguments.by_the_rules(model.net, 'baseline', 1, 2, 300)))
            self.not_carried(book, model)
            self.orders_of_books(book, model)
            self.part_of_entry(book, model)
            self.round_trip(book, model)

    def filled(self, count):
        """A new book filled by one file at so many places, in any order; what is written has them by rising place."""
        book, model = self.new_book()
        found = []
        for place in self.rng.sample(range(1, PLACES + 1), count):
            start, end = self.rng.sample(range(1, len(model.rows) + 1), 2)
            found.append(files.entry_of(place, carried(self.arguments.by_the_rules(model.net, self.rng.choice(('baseline', 'height')), start, end, 300))))
        self.enter_file(book, model, files.write(found), 8 * count)
        self.same('the records of a book that a file fills', len(model.records), count)
        self.written(book, model, True)
        self.round_trip(book, model)

    # ---- large files, and the document
    def large(self):
        """Files of 10,000 entries, whole and with one bit flipped in the first, a middle and the last entry; asked, and entered on a book."""
        r = self.rng
        whole = files.write(any_entries(r, LARGE, range(1, PLACES)))
        self.coverage.note('large files', 'read' if self.check_file(whole) else 'refused')
        for at in (0, 128 * (LARGE // 2), 128 * (LARGE - 1)):
            k = at + r.randrange(128)
            self.coverage.note('large files', 'read' if self.check_file(whole[:k] + bytes([whole[k] ^ 1]) + whole[k + 1:]) else 'refused')
        last = files.write(any_entries(r, 2, [PLACES]))
        for night, day, place in ((whole, last, 1), (whole, last, PLACES), (last, whole, 100), (b'', whole, PLACES)):
            self.in_force(night, day, place)
        book, model = self.new_book()
        self.enter_file(book, model, self.file_for(model, LARGE), 8 * LARGE)
        self.coverage.note('large files', 'entered')

    def document(self):
        """The file that docs/FILES.md prints, by its bytes and by its words, is the one of the entries that its text names."""
        with open(WORKED, encoding='utf-8') as page:
            lines = re.findall(r'^ +(\d+) +((?:[0-9a-f]{2} ){7}[0-9a-f]{2}) +(-?\d+)\b', page.read(), re.MULTILINE)
        data = files.write(WORKED_ENTRIES)
        self.same('the bytes in docs/FILES.md', b''.join(bytes.fromhex(v) for _, v, _ in lines), data)
        self.same('the starts and the words in docs/FILES.md', [(int(at), int(word)) for at, _, word in lines], [(8 * k, v) for k, v in enumerate(w for row in rows_of(data) for w in row)])
        self.same('the file in docs/FILES.md reads', self.check_file(data), True)
        self.in_force(data, b'', 3)
        self.coverage.note('words in docs/FILES.md', 'compared', len(lines))

    def run(self):
        header = Header()
        for name, want in HEADER.items():
            self.same('%s in the header' % name, header.constants.get(name), want)
        self.same('the calls on files of the header', [name for name in header.calls if 'file' in name or 'entry' in name], list(FILE_CALLS))
        self.document()
        self.each_word()
        self.each_bit()
        self.places()
        for turn in range(PAIRS):
            self.pair(turn)
        for _ in range(TURNS):
            self.orders_in_force()
            for count in COUNTS:
                self.filled(count)
        for turn in range(BOOKS):
            self.book(turn % 4 != 0)
        self.large()


if __name__ == '__main__':
    Files(Library(sys.argv[1]), 20261120).report(FILES)
