"""Random files of entries and damage to them, for the tests of request 6. Damage leaves the sums of the entries right where its name says so, or where it only moves entries and words."""
import struct

from files import BASELINE, ENTRY_BYTES, HEIGHT_DIFFERENCE, NO_PREVIOUS, PLACE, PLACES, STRIKE, TRAILER_BYTES, USED, read, signed, with_trailer, write

EXTREME = (0, 1, -1, 2, 3, 4, 255, 256, 257, 2 ** 31, 2 ** 32 + 1, 2 ** 62, 2 ** 63 - 1, -2 ** 63, -2 ** 63 + 1, -2 ** 62)
START, PREVIOUS, SUM = 13, 14, 15                      # words of the trailer


# ---- files
def entry(rng, place):
    """Any entry for the place: what is judged only when it is entered may be any word."""
    kind = rng.choice((BASELINE, HEIGHT_DIFFERENCE, STRIKE))
    words = [0] * 13
    for k in USED[kind]:
        words[k] = rng.choice((rng.choice(EXTREME), rng.randint(1, 32), rng.randint(-10 ** 9, 10 ** 9), signed(rng.getrandbits(64))))
    return (kind, place, *words[2:])


def entries(rng, count, places):
    return [entry(rng, rng.choice(places)) for _ in range(count)]


def rows(data):
    """The words of the whole entries, in lists."""
    return [list(struct.unpack_from('<16q', data, at)) for at in range(0, len(data) - ENTRY_BYTES + 1, ENTRY_BYTES)]


def packed(found):
    return b''.join(struct.pack('<16q', *row) for row in found)


def changed(data, k, word, value, mended):
    """The file with one word of entry k changed, and its sum mended or not."""
    found = rows(data)
    found[k][word] = value
    if mended:
        found[k][SUM] = signed(sum(found[k][:SUM]))
    return packed(found)


# ---- damage: each takes a random source and a file of at least two entries
def a_bit(rng, data):
    at = rng.randrange(len(data))
    return data[:at] + bytes([data[at] ^ 1 << rng.randrange(8)]) + data[at + 1:]


def a_word(rng, data):
    return changed(data, rng.randrange(len(data) // ENTRY_BYTES), rng.randrange(16), rng.choice(EXTREME), False)


def a_word_mended(rng, data):
    return changed(data, rng.randrange(len(data) // ENTRY_BYTES), rng.randrange(SUM), rng.choice(EXTREME), True)


def words_exchanged(rng, data):
    found = rows(data)
    row, (a, b) = rng.choice(found), rng.sample(range(SUM), 2)
    row[a], row[b] = row[b], row[a]
    return packed(found)


def words_balanced(rng, data):
    """One word more by what another is less, or both by 2^63: the sum stays right."""
    found = rows(data)
    row, (a, b), by = rng.choice(found), rng.sample(range(SUM), 2), rng.choice((1, 8, 24, 128, 2 ** 32, 2 ** 63))
    row[a], row[b] = signed(row[a] + by), signed(row[b] - by)
    return packed(found)


def cut(rng, data):
    return data[:rng.randrange(len(data))]


def cut_between(rng, data):
    return data[:ENTRY_BYTES * rng.randrange(len(data) // ENTRY_BYTES)]


def front_cut(rng, data):
    return data[rng.choice((ENTRY_BYTES, rng.randrange(1, len(data)))):]


def entries_exchanged(rng, data):
    found = rows(data)
    a, b = rng.sample(range(len(found)), 2)
    found[a], found[b] = found[b], found[a]
    return packed(found)


def entry_left_out(rng, data):
    found = rows(data)
    del found[rng.randrange(len(found) - 1)]
    return packed(found)


def entry_twice(rng, data):
    found = rows(data)
    k = rng.randrange(len(found))
    return packed(found[:k + 1] + found[k:])


def bytes_appended(rng, data):
    return data + rng.choice((bytes(rng.choice((1, 8, 24, 104, 127, 128, 256))), rng.randbytes(rng.randint(1, 300))))


def entry_appended(rng, data):
    """As by the rules: a file again."""
    return write([words for _, words in read(data)] + entries(rng, 1, range(1, PLACES + 1)))


def two_files(rng, data):
    return data + write(entries(rng, rng.randint(1, 3), range(1, PLACES + 1)))


def first_previous(rng, data):
    """The first entry points back to something, its sum right."""
    value = rng.choice((0, 1, -2, -24, -25, 104, len(data) - TRAILER_BYTES, 2 ** 63 - 1, -2 ** 63, rng.randint(0, len(data))))
    return changed(data, 0, PREVIOUS, value, True)


def later_ends(rng, data):
    """A later entry has −1, as if it were the first; its sum is right."""
    return changed(data, rng.randrange(1, len(data) // ENTRY_BYTES), PREVIOUS, NO_PREVIOUS, True)


def elsewhere(rng, data):
    """A trailer that points elsewhere than to the one before it: forward, to itself, to one further back, to an entry's start, off by some bytes; its sum right."""
    count = len(data) // ENTRY_BYTES
    k = rng.randrange(1, count)
    at = ENTRY_BYTES * k
    other = rng.choice([at - 24 + by for by in (-256, -128, -104, -24, -8, -1, 1, 8, 24, 104, 128, 256)] + [0, ENTRY_BYTES * rng.randrange(count) + 104])
    return changed(data, k, PREVIOUS, other, True)


def placed(found, starts, junk):
    """The entries at these starts, their trailers pointing to where they are, with the junk before and between them."""
    data, previous = b'', NO_PREVIOUS
    for words, start in zip(found, starts):
        data += junk[len(data):start]
        data += struct.pack('<16q', *with_trailer(words, start, previous))
        previous = len(data) - TRAILER_BYTES
    return data


def moved(rng, data):
    """The whole file further back, trailers with it: the entry with −1 is not at byte 0."""
    found, by = [words for _, words in read(data)], rng.choice((1, 8, 24, 104, 128, 256, rng.randint(1, 300)))
    return placed(found, [by + ENTRY_BYTES * k for k in range(len(found))], rng.randbytes(len(data) + by))


def gap(rng, data):
    """Some bytes between two entries, and trailers that point over them."""
    found, by = [words for _, words in read(data)], rng.choice((1, 8, 24, 64, 128, 256))
    after = rng.randrange(1, len(found))
    return placed(found, [ENTRY_BYTES * k + (by if k >= after else 0) for k in range(len(found))], rng.choice((bytes(len(data) + by), rng.randbytes(len(data) + by))))


def tail_as_file(rng, data):
    """The later entries alone, the first of them with −1 and its sum right: their starts are those of the longer file."""
    later = data[ENTRY_BYTES * rng.randrange(1, len(data) // ENTRY_BYTES):]
    return changed(later, 0, PREVIOUS, NO_PREVIOUS, True)


def place_beyond(rng, data):
    return changed(data, rng.randrange(len(data) // ENTRY_BYTES), PLACE, rng.choice((0, -1, 257, 2 ** 32 + 1, 2 ** 63 - 1, -2 ** 63)), True)


DAMAGE = {
    'a bit': a_bit, 'a word': a_word, 'a word, the sum right': a_word_mended, 'two words of an entry exchanged': words_exchanged, 'two words changed, the sum right': words_balanced,
    'cut': cut, 'cut between entries': cut_between, 'the front cut off': front_cut, 'two entries exchanged': entries_exchanged, 'an entry left out': entry_left_out,
    'an entry twice': entry_twice, 'bytes appended': bytes_appended, 'an entry appended': entry_appended, 'two files in one': two_files, 'the first points back': first_previous,
    'a later one without a previous': later_ends, 'a trailer that points elsewhere': elsewhere, 'the whole moved': moved, 'a gap': gap, 'the later entries as a file': tail_as_file,
    'a place beyond': place_beyond}


def damaged(rng, data, kind):
    """The file after damage of that kind, which is not what it was."""
    while True:
        found = DAMAGE[kind](rng, data)
        if found != data:
            return found
