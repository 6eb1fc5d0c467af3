"""A book's bytes by docs/BOOK.md, written and judged independently of the library: for the tests. Rules of stations and records are the reference's."""
import functools
import os
import struct
import sys

sys.path.insert(0, os.path.join(os.path.dirname(os.path.abspath(__file__)), '..', 'reference'))
import survey  # noqa: E402

LAYOUT = 3                              # the book's first word
WORDS = 7028
BYTES = 8 * WORDS
PLACES, SLOTS = 256, 64
TO_AT, HEIGHTS_AT = 2, 12               # of the 14 words of a record
STATIONS_AT, PLACES_AT, NEXT_AT, COUNT_AT, SLOTS_AT, MATRIX_AT, RIGHT_AT = 2, 130, 3714, 3715, 3716, 4676, 6980


def record_words(r):
    if r is None:
        return [0] * 14
    if isinstance(r, survey.Baseline):
        return [1, r.start, r.end, *r.observed, *r.weights, *r.heights]
    if isinstance(r, survey.Position):
        return [4, r.station, 0, *r.observed, *r.weights, 0, 0]
    return [2, r.start, r.end, 0, 0, r.up, 0, 0, 0, 0, 0, r.single, 0, 0]


def record_of(w):
    """The record of 14 words, or 'bad'."""
    r = None
    if w[0] == 1:
        r = survey.Baseline(w[1], w[2], tuple(w[3:6]), tuple(w[6:12]), tuple(w[12:]))
    elif w[0] == 2:
        r = survey.Level(w[1], w[2], w[5], w[11])
    elif w[0] == 4:
        r = survey.Position(w[1], tuple(w[3:6]), tuple(w[6:12]))
    return r if record_words(r) == list(w) else 'bad'


def normal_bytes(net, records):
    """The bytes of N and u."""
    matrix, right = survey.normals(net, records)
    w = []
    for row in matrix:
        w += row + [0] * (48 - net.n)
    w += [0] * (48 * (48 - net.n)) + right + [0] * (48 - net.n)
    return struct.pack('<%dq' % len(w), *w)


class Book:
    """A book as the calls keep it: stations, records by place from 1, and the ring of reversals (place from 0, record before)."""

    def __init__(self, rows):
        self.rows = [tuple(r) for r in rows]
        self.net = survey.Network(survey.Station(*r) for r in self.rows)
        self.records = {}
        self.slots = [None] * SLOTS
        self.next = 0
        self.count = 0

    def bytes(self):
        w = [LAYOUT, len(self.rows)]
        for k in range(32):
            w += self.rows[k] if k < len(self.rows) else (0, 0, 0, 0)
        for p in range(1, PLACES + 1):
            w += record_words(self.records.get(p))
        w += [self.next, self.count]
        for slot in self.slots:
            w += [0] * 15 if slot is None else [slot[0]] + record_words(slot[1])
        return struct.pack('<%dq' % MATRIX_AT, *w) + normal_bytes(self.net, self.records)

    def change(self, place, record):
        """Changes what a place holds; the journal keeps what it held."""
        self.slots[self.next] = (place - 1, self.records.get(place))
        self.next = (self.next + 1) % SLOTS
        self.count = min(self.count + 1, SLOTS)
        self.put(place, record)

    def put(self, place, record):
        if record is None:
            self.records.pop(place, None)
        else:
            self.records[place] = record

    def latest(self):
        """The place whose record an undo restores; None where there is nothing to undo."""
        return self.slots[self.next - 1][0] + 1 if self.count else None

    def edit(self, call, place, record):
        """The number of an enter, a strike or an undo, which is done where it is 0."""
        if call == 'undo':
            if self.count == 0:
                return 8
            self.next = (self.next - 1) % SLOTS
            self.count -= 1
            p, before = self.slots[self.next]
            self.slots[self.next] = None
            self.put(p + 1, before)
            return 0
        if not 1 <= place <= PLACES:
            return 2
        if call == 'strike':
            number = 0 if place in self.records else 7
        else:
            number = survey.record_number(self.net, record)
        if number == 0:
            self.change(place, record)
        return number


def fits(net, r):
    return r is None or survey.record_number(net, r) == 0


@functools.lru_cache(maxsize=4)
def before_journal(front):
    """(stations, records, bytes of their N and u) of the bytes before the journal; None where they break a rule. Kept, since damage elsewhere leaves them as they are."""
    w = struct.unpack('<%dq' % NEXT_AT, front)
    if w[0] != LAYOUT or not 1 <= w[1] <= 32:
        return None
    rows = [w[STATIONS_AT + 4 * k:STATIONS_AT + 4 * k + 4] for k in range(32)]
    if any(v for r in rows[w[1]:] for v in r) or survey.open_number(rows[:w[1]]):
        return None
    book = Book(rows[:w[1]])
    for p in range(PLACES):
        r = record_of(w[PLACES_AT + 14 * p:PLACES_AT + 14 * p + 14])
        if r == 'bad' or not fits(book.net, r):
            return None
        book.put(p + 1, r)
    return book.rows, book.records, normal_bytes(book.net, book.records)


def judge(data):
    """The book in lent bytes, or None where 25 is right."""
    known = before_journal(data[:8 * NEXT_AT]) if len(data) >= BYTES else None
    if known is None or known[2] != data[8 * MATRIX_AT:BYTES]:
        return None
    book = Book(known[0])
    book.records = dict(known[1])
    w = struct.unpack('<%dq' % MATRIX_AT, data[:8 * MATRIX_AT])
    book.next, book.count = w[NEXT_AT], w[COUNT_AT]
    if not (0 <= book.next < SLOTS and 0 <= book.count <= SLOTS):
        return None
    state = dict(book.records)
    for age in range(SLOTS):
        k = (book.next - 1 - age) % SLOTS
        slot = w[SLOTS_AT + 15 * k:SLOTS_AT + 15 * k + 15]
        if age >= book.count:
            if any(slot):
                return None
            continue
        r = record_of(slot[1:])
        if r == 'bad' or not 0 <= slot[0] < PLACES or not fits(book.net, r) or (r is None and slot[0] + 1 not in state):
            return None
        book.slots[k] = (slot[0], r)
        state.pop(slot[0] + 1, None)
        if r is not None:
            state[slot[0] + 1] = r
    return book
