"""Random calls on the static library from fixed seeds: every result and every byte of every lent slice compared with the independent implementation in tests/reference and the
layout of docs/BOOK.md. Valid calls, refused ones, extreme numbers, wrong lengths, every call on damaged and short bytes; an enter and its undo, which leave the book as it was
but for the oldest edit of a full history. Fails too where it meets less than coverage.py asks. Prints 'N passed, M failed' last.

    python3 tests/host/calls.py LIBRARY.so
"""
import sys

from arguments import SHORT, SLICES
from comparison import Comparison
from coverage import CALLS, SIZES
from expected import BAD_LENGTHS, BAD_PLACE, EDITS, FILE_CALLS, NO_BOOK, NO_PROPOSAL, ON_BOOKS, SALVAGE, edit_given, entering, lengths_fit, opening, outcome, packed, refusal, words_in
from layout import BYTES, MATRIX_AT, NEXT_AT, SLOTS, judge
from library import Buffer, Header, Library
import kinds
import survey

BOOKS, EDITS_A_BOOK = 190, 120                                         # random books
NETWORKS = {'1 to 9': 50, '10 to 24': 40, '25 to 47': 20, '48': 10}      # by numbers of unknowns
VERDICTS = ('PASS', 'FAIL', 'LOOSE', 'LOW', 'HIGH', 'NONE')              # by their words in a sheet
ENTERS = ('enter_baseline', 'enter_height', 'enter_position')
BOOK_EDITS = ('enter_baseline', 'enter_baseline', 'enter_baseline', 'enter_height', 'enter_height', 'enter_position', 'enter_position', 'strike')      # of a random book, beside undos
UNDOS = (0.02, 0.15, 0.45)                                             # their share in a random book; with few the history runs full
HEADER = {'VERSION': 5, 'PLACE_EMPTY': 7, 'PLACE_TAKEN': None}           # what it must say; None: it has no such constant
GONE = ('add_baseline', 'add_height', 'replace_baseline', 'replace_height')      # calls before request 3


class Calls(Comparison):
    # ---- one call
    def ask(self, name, book, model, arguments):
        """A call on lent book bytes; the model, the book in them or None, follows. Returns the result."""
        got = self.call(name, book, *arguments)
        if name == 'propose':
            result, left = self.proposal(model, got)
        else:
            left = list(got[1])
            slices = iter(left[1:])
            wanted = self.edited if name in EDITS and model else outcome
            result, front = wanted(name, model, [next(slices) if isinstance(a, Buffer) else a for a in arguments])
            k = 0 if name in EDITS else len(left) - 1
            left[k] = front + left[k][len(front):]
            if name == 'check_sheet' and result == 0:
                self.note_sheet(model, words_in(front))
        self.compare(name, got, result, left)
        return got[0]

    def edited(self, name, model, numbers):
        """What is wanted of an edit, which is noted by what its place holds before and after it."""
        call, place, record = edit_given(name, numbers)
        place = model.latest() if call == 'undo' else place
        before = model.records.get(place)
        wanted = outcome(name, model, numbers)
        if call == 'enter' and wanted[0] != BAD_PLACE:
            self.coverage.note('%s, at %s place' % (name, 'an empty' if before is None else 'a filled'), wanted[0])
            heights = kinds.of_heights(model.net, record)
            if heights:
                self.coverage.note('baselines with antenna heights', heights)
        if wanted[0] == 0:
            self.coverage.note('accepted edits', kinds.of_edit(call, before, model.records.get(place)))
            exchange = kinds.of_exchange(call, before, model.records.get(place))
            if exchange:
                self.coverage.note('records over others of another kind', exchange)
        return wanted

    def proposal(self, model, got):
        """(result, slices) wanted of a proposal: the pair is free but that the check accepts it, and there is one wherever the exact pair, rounded, is accepted."""
        result, before, after = got
        if model is None:
            return NO_BOOK, before
        if not lengths_fit(model, *before[1:]):
            return BAD_LENGTHS, before
        if result == 0:
            self.same('the check of a proposal', survey.check(model.net, model.records, *map(words_in, after[1:])), (0,))
            return 0, before[:1] + after[1:]
        pair = self.arguments.exact(model)
        return 0 if pair and survey.check(model.net, model.records, *pair) == (0,) else NO_PROPOSAL, before

    # ---- calls with random arguments
    def open(self, listed, lent):
        """The book opened, or None."""
        got = self.call('open', Buffer(listed), Buffer(lent))
        result, model = opening(listed, lent)
        front = model.bytes() if model else b''
        self.compare('open', got, result, [listed, front + lent[len(front):]])
        return model

    def open_any(self, tail):
        """A random list on random bytes, until one opens."""
        r = self.rng
        while True:
            listed = packed([v for row in self.arguments.stations() for v in row]) + bytes(r.choice([1, 8, 16, 24, 31]) if r.random() < 0.1 else 0)
            lent = self.arguments.bytes(BYTES) + tail
            model = self.open(listed, lent[:r.choice(SHORT)] if r.random() < 0.1 else lent)
            if model:
                return model

    def any(self, name, book, model, near):
        """A call of that name with random arguments that suit the book `near`: the model itself, or where the bytes hold none the book that was damaged."""
        if name in EDITS:
            self.ask(name, book, model, self.arguments.edit(name, near))
            return
        lent, lengths = self.arguments.slices(name, near) if name in SLICES else ([], {})
        place = [self.arguments.place(near)] if name == 'record' else []
        distance = self.arguments.distance(near) if name == 'check_distance' else []
        result = self.ask(name, book, model, place + [Buffer(v) for v in lent] + distance)
        if model is not None:
            for slice_, length in lengths.items():
                self.coverage.note('%s, length of %s' % (name, slice_), length)
            if name == 'record' and result == 0:
                self.coverage.note('record, what it read', kinds.of_place(model.records.get(place[0])))
            if refusal(result) == 11:
                self.coverage.note('the unknown of 11', 'the first' if result // 256 == 1 else 'a later one')

    def note_sheet(self, model, words):
        self.coverage.note('accepted sheets by unknowns', next(k for k, (low, high) in SIZES.items() if low <= model.net.n <= high))
        self.coverage.note('accepted sheets by global verdict', VERDICTS[words[-1]])
        self.note_ties('accepted sheets by their ties', model)
        found = {kinds.of(model.net, r) for r in model.records.values()}
        for kind in found:
            self.coverage.note('accepted sheets by a record in them', kind)
        if found & kinds.CHECK_ONLY:
            self.coverage.note('D of accepted sheets with a check only', '0' if words[-2] == 0 else 'to 30' if words[-2] <= 30 else 'above')
        at = 2 + 7 * len(model.rows)
        for _, r in sorted(model.records.items()):
            k = len(r.components)
            for verdict in words[at + 1 + k:at + 1 + 2 * k]:
                self.coverage.note('local verdicts of accepted sheets', VERDICTS[verdict])
            at += 1 + 2 * k

    def every(self, book, model, near):
        """Every call that takes a book, once."""
        for name in ON_BOOKS:
            self.any(name, book, model, model or near)

    def damaged(self, good, near):
        """Every call on damaged bytes: 25 and nothing written, or where they still hold a book what the call does on that book."""
        kind, data = self.arguments.damage(good)
        model = judge(data)
        self.coverage.note('damage: ' + kind, 'refused' if model is None else 'read')
        if len(data) < BYTES:
            self.open(packed([v for row in near.rows for v in row]), data)
        self.every(Buffer(data), model, near)

    # ---- runs of calls
    def run(self):
        self.header()
        for _ in range(BOOKS):
            self.book()
        for size, count in NETWORKS.items():
            for _ in range(count):
                self.network(*SIZES[size])

    def header(self):
        """The header has just the calls that are tested here and those that file_calls.py and salvage_calls.py test, and the constants that follow from them; the library has no call that
        is gone."""
        header = Header()
        for name, want in HEADER.items():
            self.same('%s in the header' % name, header.constants.get(name), want)
        self.same('the calls of the header', sorted(header.calls), sorted(('open', SALVAGE) + ON_BOOKS + FILE_CALLS))
        self.same('the calls that the library has', [name for name in ENTERS + GONE if self.lib.has(name)], list(ENTERS))

    def edit(self, name, book, model, ledger):
        """An edit of that name with random numbers, also against the plain ledger. Returns the result."""
        numbers = self.arguments.edit(name, model)
        result = self.ask(name, book, model, numbers)
        call, place, record = edit_given(name, numbers)
        self.same(name + ' by the ledger', result, getattr(ledger, call)(*(v for v in (place, record) if v is not None)))
        return result

    def enter_and_undo(self, book, model, ledger):
        """A random enter and its undo at once: every byte is as it was, but for those of the journal where it was full, since its oldest edit is gone."""
        full = model.count == SLOTS
        before = book.get()
        if self.edit(self.rng.choice(ENTERS), book, model, ledger) != 0:
            return
        place = model.latest()
        entered = model.records.get(place)
        self.edit('undo', book, model, ledger)
        left = book.get()
        if full:
            before, left = (data[:8 * NEXT_AT] + data[8 * MATRIX_AT:] for data in (before, left))
        self.same('the book after an enter and its undo', left, before)
        self.coverage.note('undone at once, history %s' % ('full' if full else 'not full'), kinds.of_edit('enter', model.records.get(place), entered))
        self.coverage.note('undone at once, restored', kinds.of_place(model.records.get(place)))

    def book(self):
        """A long run of edits on one book; enters undone at once, damaged copies and checks on the way."""
        tail = self.arguments.bytes(self.rng.choice([0, 0, 1, 5, 16]))
        model = self.open_any(tail)
        ledger = survey.Ledger(model.net)
        book = Buffer(model.bytes() + tail)
        undos = self.rng.choice(UNDOS)
        for k in range(EDITS_A_BOOK):
            self.edit('undo' if self.rng.random() < undos else self.rng.choice(BOOK_EDITS), book, model, ledger)
            if k % 8 == 0:
                self.damaged(book.get(), model)
                self.enter_and_undo(book, model, ledger)
            if k % 12 == 0:
                for name in ON_BOOKS[len(EDITS):]:
                    self.any(name, book, model, model)

    def network(self, low, high):
        """A network with a chain for every unknown: sheets of just the room, word by word, then every call, on it and on the networks that some edits make of it."""
        rows, records = self.arguments.tied_network(low, high)
        model = self.open(packed([v for row in rows for v in row]), bytes(BYTES))
        book = Buffer(model.bytes())
        for place, r in enumerate(records, 1):
            name, numbers = entering(place, r)
            self.same('a record of a network', self.ask(name, book, model, numbers), 0)
        for _ in range(3):
            pair = self.arguments.exact(model)
            if pair:
                self.sheets(book, model, *map(packed, pair))
            self.every(book, model, model)

    def sheets(self, book, model, x, m):
        """A sheet of just the bytes that `sheet_bytes` answers, and one of a byte less."""
        room = self.ask('sheet_bytes', book, model, []) // 256
        for lent in (room, room - 1):
            self.ask('check_sheet', book, model, [Buffer(x), Buffer(m), Buffer(self.arguments.bytes(lent))])


if __name__ == '__main__':
    Calls(Library(sys.argv[1]), 20261117).report(CALLS)
