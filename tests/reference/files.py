"""Files of entries, an independent implementation of request 6 of document 02, for the tests: written from its words, and where they leave something open by what docs/DECISIONS.md decides, with no thought for speed. A file is bytes, an entry
its first thirteen words as a tuple; the trailer is worked out where a file is written, and followed back where one is read."""
import struct

import survey

BASELINE, HEIGHT_DIFFERENCE, STRIKE = 1, 2, 3          # kinds, as words
NIGHT, DAY = 1, 2
ENTRY_WORDS, ENTRY_BYTES = 16, 128
TRAILER_BYTES = 24                                     # of the three words at the end of an entry
KIND, PLACE, FROM, TO, U, UU = 0, 1, 2, 3, 6, 12       # words of an entry
USED = {BASELINE: range(13), HEIGHT_DIFFERENCE: (KIND, PLACE, FROM, TO, U, UU), STRIKE: (KIND, PLACE)}
PLACES = 256
NO_PREVIOUS = -1
BAD_PLACE, NO_ROOM, BAD_FILE, NOT_CARRIED, NO_ENTRY = 2, 10, 18, 19, 20


def signed(v):
    """The 64-bit word that is v modulo 2^64."""
    v %= 2 ** 64
    return v - 2 ** 64 if v >= 2 ** 63 else v


# ---- writing
def with_trailer(entry, start, previous):
    """The sixteen words of an entry that starts at that byte, after a trailer that starts at `previous`."""
    fifteen = (*entry, start, previous)
    return (*fifteen, signed(sum(fifteen)))


def write(entries):
    """The file of the entries, in their order."""
    data, previous = bytearray(), NO_PREVIOUS
    for entry in entries:
        start = len(data)
        data += struct.pack('<16q', *with_trailer(entry, start, previous))
        previous = len(data) - TRAILER_BYTES
    return bytes(data)


def entry_of(place, r):
    """The entry of a record at its place, and of None a strike of it; None for a record that a file cannot carry."""
    if r is None:
        return (STRIKE, place, *[0] * 11)
    if isinstance(r, survey.Level):
        return (HEIGHT_DIFFERENCE, place, r.start, r.end, 0, 0, r.up, 0, 0, 0, 0, 0, r.single)
    if isinstance(r, survey.Baseline) and r.heights == (0, 0):
        return (BASELINE, place, r.start, r.end, *r.observed, *r.weights)
    return None


def write_book(records, room):
    """(0, the file of the records by rising place) in so many bytes of room, or (its refusal, no bytes)."""
    if room < ENTRY_BYTES * len(records):
        return NO_ROOM, b''
    entries = [entry_of(place, r) for place, r in sorted(records.items())]
    return (NOT_CARRIED, b'') if None in entries else (0, write(entries))


# ---- reading
def right(words):
    """Whether the kind, the place, the unused words and the sum are right."""
    unused = [words[k] for k in range(13) if k not in USED.get(words[KIND], ())]
    return words[KIND] in USED and 1 <= words[PLACE] <= PLACES and not any(unused) and words[15] == signed(sum(words[:15]))


def read(data):
    """The entries of a file in their order, each as (start, thirteen words); None where it does not read. Reading begins at the last byte and follows the trailers back until −1, which
    must be the entry at byte 0; entries lie end to end."""
    if not data:
        return []
    entries, trailer = [], len(data) - TRAILER_BYTES
    while trailer >= 0:
        start, previous = struct.unpack_from('<2q', data, trailer)
        if start < 0 or start + ENTRY_BYTES != trailer + TRAILER_BYTES:
            return None
        words = struct.unpack_from('<16q', data, start)
        if not right(words):
            return None
        entries.append((start, words[:13]))
        if previous == NO_PREVIOUS:
            return entries[::-1] if start == 0 else None
        if previous + TRAILER_BYTES != start:
            return None
        trailer = previous
    return None


def latest(entries, place):
    """The start of the last entry for the place; None where there is none."""
    return next((start for start, entry in reversed(entries) if entry[PLACE] == place), None)


def in_force(night, day, place, room):
    """(0, the file that holds the entry in force, its start), or (its refusal,), where so many bytes are lent for the two words."""
    if not 1 <= place <= PLACES:
        return (BAD_PLACE,)
    if room < 16:
        return (NO_ROOM,)
    files = {NIGHT: read(night), DAY: read(day)}
    if None in files.values():
        return (BAD_FILE,)
    for which, entries in files.items():
        start = latest(entries, place)
        if start is not None:
            return 0, which, start
    return (NO_ENTRY,)


# ---- entering
def record_in(entry):
    """The record that an entry gives its place; None for a strike."""
    if entry[KIND] == STRIKE:
        return None
    if entry[KIND] == HEIGHT_DIFFERENCE:
        return survey.Level(entry[FROM], entry[TO], entry[U], entry[UU])
    return survey.Baseline(entry[FROM], entry[TO], tuple(entry[4:7]), tuple(entry[7:13]))


def enter(data, room, edit):
    """(0, the answers), or (its refusal, none), where so many bytes are lent for them. `edit` makes one call, of its name, place and record, and gives its answer."""
    if room < 8 * (len(data) // ENTRY_BYTES):
        return NO_ROOM, []
    entries = read(data)
    if entries is None:
        return BAD_FILE, []
    return 0, [edit('strike' if entry[KIND] == STRIKE else 'enter', entry[PLACE], record_in(entry)) for _, entry in entries]
