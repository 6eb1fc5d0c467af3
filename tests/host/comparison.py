"""What the tests of random calls share: a call on the static library, compared with what is wanted of it, edits of one book, and the report at the end."""
import random

from arguments import Arguments
from coverage import Coverage
from expected import entering, outcome, packed, refusal
from layout import BYTES, SLOTS, Book
from library import Buffer
import kinds

MOST_FAILURES = 20                         # then the run ends


class TooMany(Exception):
    pass


class Comparison:
    def __init__(self, library, seed):
        self.lib = library
        self.rng = random.Random(seed)
        self.arguments = Arguments(self.rng)
        self.coverage = Coverage()
        self.calls = 0
        self.failed = []

    def same(self, what, got, want):
        if got == want:
            return
        if isinstance(got, bytes):
            self.failed.append('%s: byte %d is another' % (what, next(k for k in range(max(len(got), len(want))) if got[k:k + 1] != want[k:k + 1])))
        else:
            self.failed.append('%s: %r, not %r' % (what, got, want))
        if len(self.failed) == MOST_FAILURES:
            raise TooMany

    def call(self, name, *arguments):
        """(result, lent slices before, lent slices after)"""
        lent = [a for a in arguments if isinstance(a, Buffer)]
        before = [b.get() for b in lent]
        result = self.lib.call(name, *arguments)
        self.calls += 1
        self.coverage.note(name, refusal(result))
        return result, before, [b.get() for b in lent]

    def note_ties(self, what, book):
        """Which unknowns of a book, each of which has its chain, have it by positions alone."""
        for tie in kinds.of_ties(book.net, book.records) or {'tied without positions'}:
            self.coverage.note(what, tie)

    def compare(self, name, got, result, left):
        """The result and the lent slices of a call against those wanted."""
        self.same(name, got[0], result)
        for k, (is_, was, want) in enumerate(zip(got[2], got[1], left)):
            self.same('slice %d after %s%s' % (k, name, ', where nothing is written' if want == was else ''), is_, want)

    def report(self, table):
        """Makes all the calls; prints what failed, also where less was met than the table of coverage asks, what was met, and 'N passed, M failed'."""
        try:
            self.run()
            self.failed += self.coverage.shortfalls(table)
        except TooMany:
            pass
        for line in self.failed:
            print(line)
        print(self.coverage.text())
        print('%d passed, %d failed' % (max(0, self.calls - len(self.failed)), len(self.failed)))


class Edits(Comparison):
    """Edits of one book after the other, each against what is wanted of it."""

    def opened(self, rows):
        """(the library's bytes, the model) of a new book"""
        book = Buffer(bytes(BYTES))
        self.same('open', self.call('open', Buffer(packed([v for row in rows for v in row])), book)[0], 0)
        return book, Book(rows)

    def edit(self, book, model, name, numbers):
        got = self.call(name, book, *numbers)
        result, front = outcome(name, model, numbers)
        self.compare(name, got, result, [front + got[1][0][len(front):]])
        return result

    def put(self, book, model, place, r):
        """Enters a record that is by the rules."""
        self.same('a record of a network', self.edit(book, model, *entering(place, r)), 0)

    def enter(self, book, model, place, r):
        """Enters the record and reads it back; most are undone at once, which leaves every byte as it was, but where the history was full. Returns the result."""
        before, full = book.get(), model.count == SLOTS
        result = self.edit(book, model, *entering(place, r))
        if result != 0:
            return result
        got = self.call('record', book, place, Buffer(bytes(112)))
        result, words = outcome('record', model, [place, bytes(112)])
        self.compare('record', got, result, [got[1][0], words])
        if self.rng.random() < 0.7:
            self.edit(book, model, 'undo', [])
            if not full:
                self.same('the book after an enter and its undo', book.get(), before)
                self.coverage.note('undone at once, restored', kinds.of_place(model.records.get(place)))
        return result
