"""What broken transfers leave of a file, for the tests of request 7, beside the damage of damaged_files.py: bytes lost, put in, zeroed and overwritten anywhere; entries wrong in one thing;
right entries that lie over each other; noise."""
import struct

from damaged_files import EXTREME, PREVIOUS, START, SUM, changed, entry as any_entry, packed, rows
from files import BASELINE, ENTRY_BYTES, ENTRY_WORDS, HEIGHT_DIFFERENCE, KIND, PLACE, PLACES, STRIKE, USED, signed, write

STEP = 8
ALL_PLACES = range(1, PLACES + 1)


# ---- bytes lost, put in, zeroed, overwritten: each takes a random source and a file of at least two entries
def without(data, at, count):
    return data[:at] + data[at + count:]


def with_bytes(data, at, more):
    return data[:at] + more + data[at:]


def cut_in_a_word(rng, data):
    return data[:STEP * rng.randrange(len(data) // STEP) + rng.randint(1, STEP - 1)]


def cut_in_an_entry(rng, data):
    return data[:ENTRY_BYTES * rng.randrange(len(data) // ENTRY_BYTES) + STEP * rng.randint(1, ENTRY_WORDS - 1)]


def a_few_bytes_lost(rng, data):
    return without(data, rng.randrange(len(data) - STEP), rng.randint(1, STEP - 1))


def words_lost(rng, data):
    return without(data, rng.randrange(len(data) - ENTRY_BYTES), STEP * rng.randint(1, ENTRY_WORDS - 1))


def as_much_as_entries_lost(rng, data):
    """128 bytes or a multiple, from anywhere: most often parts of two entries, which then stand together."""
    count = ENTRY_BYTES * rng.randint(1, len(data) // ENTRY_BYTES - 1)
    return without(data, rng.randint(0, len(data) - count), count)


def a_few_bytes_put_in(rng, data):
    return with_bytes(data, rng.randint(0, len(data)), rng.randbytes(rng.randint(1, STEP - 1)))


def words_put_in(rng, data):
    return with_bytes(data, rng.choice((0, len(data), rng.randrange(len(data)))), rng.randbytes(STEP * rng.randint(1, ENTRY_WORDS - 1)))


def as_much_as_entries_put_in(rng, data):
    return with_bytes(data, rng.randint(0, len(data)), rng.randbytes(ENTRY_BYTES * rng.randint(1, 3)))


def a_piece(rng, data):
    """(start, end) of some bytes, from anywhere."""
    start = rng.randrange(len(data))
    return start, min(len(data), start + rng.choice((1, STEP, 100, 300, len(data))))


def zeroed(rng, data):
    start, end = a_piece(rng, data)
    return data[:start] + bytes(end - start) + data[end:]


def overwritten(rng, data):
    start, end = a_piece(rng, data)
    return data[:start] + rng.randbytes(end - start) + data[end:]


def several_holes(rng, data):
    """A byte, a few words or an entry lost, or put in, or overwritten, in several spots."""
    found = bytearray(data)
    for _ in range(rng.randint(2, 5)):
        at, lost, more = rng.randrange(len(found) + 1), *(rng.choice(((0, 8), (8, 0), (1, 1), (64, 64), (128, 0), (16, 24))))
        found[at:at + lost] = rng.randbytes(more)
    return bytes(found)


# ---- out of step, and in step again
def two_spots(rng, data):
    return sorted(rng.sample(range(len(data) + 1), 2))


def out_of_step(rng, data):
    """1 to 7 bytes before all entries: none is at a multiple of 8."""
    return rng.randbytes(rng.randint(1, STEP - 1)) + data


def in_step_again(rng, data):
    """1 to 7 bytes put in, and further on those that are missing to 8."""
    first, second = two_spots(rng, data)
    count = rng.randint(1, STEP - 1)
    return data[:first] + rng.randbytes(count) + data[first:second] + rng.randbytes(STEP - count) + data[second:]


def lost_and_put_in(rng, data):
    """1 to 7 bytes lost, and further on as many put in."""
    first, second = two_spots(rng, data)
    count = rng.randint(1, STEP - 1)
    return data[:first] + data[first + count:second] + rng.randbytes(count) + data[max(second, first + count):]


# ---- entries in another order
def halves_exchanged(rng, data):
    at = rng.choice((len(data) // ENTRY_BYTES // 2 * ENTRY_BYTES, STEP * rng.randint(1, len(data) // STEP - 1)))
    return data[at:] + data[:at]


def repeated(rng, data):
    return data * rng.randint(2, 3)


def sent_anew(rng, data):
    """The transfer broke off and began anew."""
    return data[:rng.randrange(1, len(data))] + data


def around_a_file(rng, data):
    """The first part of an entry, a whole file, and the rest of that entry."""
    other, at = write([any_entry(rng, rng.choice(ALL_PLACES))]), STEP * rng.randint(1, ENTRY_WORDS - 1)
    return other[:at] + data + other[at:]


def a_tail(rng, data):
    """1 to 127 bytes more: of an entry that broke off, 0, or any."""
    count = rng.randint(1, ENTRY_BYTES - 1)
    return data + rng.choice((data[:count], bytes(count), rng.randbytes(count)))


# ---- entries wrong in one thing, and such as are wrong in nothing that counts
def some_entry(rng, data):
    return rng.randrange(len(data) // ENTRY_BYTES)


def of_kind(rng, data, kinds):
    """(the file with one entry made anew of one of the kinds, its number, the kind)"""
    found, k, kind = rows(data), some_entry(rng, data), rng.choice(kinds)
    found[k] = [kind, rng.choice(ALL_PLACES), *(rng.choice(EXTREME) if w in USED[kind] else 0 for w in range(2, START)), *found[k][START:SUM], 0]
    found[k][SUM] = signed(sum(found[k][:SUM]))
    return packed(found), k, kind


def wrong_kind(rng, data):
    """Of a baseline, which may have any words: so the kind is all that is wrong."""
    data, k, _ = of_kind(rng, data, (BASELINE,))
    return changed(data, k, KIND, rng.choice((0, 4, 5, -1, 2 ** 32 + 1, 2 ** 63 - 1, -2 ** 63)), True)


def wrong_place(rng, data):
    return changed(data, some_entry(rng, data), PLACE, rng.choice((0, -1, 257, 2 ** 32 + 1, 2 ** 63 - 1, -2 ** 63)), True)


def wrong_zero(rng, data):
    data, k, kind = of_kind(rng, data, (HEIGHT_DIFFERENCE, STRIKE))
    return changed(data, k, rng.choice([w for w in range(START) if w not in USED[kind]]), rng.choice([v for v in EXTREME if v]), True)


def wrong_sum(rng, data):
    k = some_entry(rng, data)
    return changed(data, k, SUM, signed(rows(data)[k][SUM] + rng.choice((1, -1, 2 ** 32, 2 ** 63, rng.getrandbits(64) | 1))), False)


def wrong_pointers(rng, data):
    """The start or what is pointed back to is another, the sum right: kept."""
    for _ in range(rng.randint(1, 3)):
        data = changed(data, some_entry(rng, data), rng.choice((START, PREVIOUS)), rng.choice((*EXTREME, rng.randint(0, len(data)))), True)
    return data


# ---- right entries that lie over each other
def demanded(kind, place, start):
    """What an entry that starts at that word asks of the words, but for its sum."""
    return {start: kind, start + 1: place, **{start + k: 0 for k in range(2, START) if k not in USED[kind]}}


def tried_over(rng, starts):
    """Words in which a right entry starts at each of these; None where the kinds and places that came up cannot lie so."""
    fixed = {}
    for start in starts:
        wanted = demanded(rng.choice(list(USED)), rng.choice((1, 2, 3, rng.choice(ALL_PLACES))), start)
        if any(fixed.get(k, v) != v for k, v in wanted.items()):
            return None
        fixed.update(wanted)
    words, done = [fixed.get(k, rng.choice((rng.choice(EXTREME), signed(rng.getrandbits(64))))) for k in range(starts[-1] + ENTRY_WORDS)], 0
    for start in starts:
        end = start + SUM
        free = [k for k in range(done, end + 1) if k not in fixed]      # words of this entry and of none before it
        if not free:
            return None
        k, off = end if end in free else rng.choice(free), words[end] - sum(words[start:end])
        words[k] = signed(words[k] - off if k == end else words[k] + off)
        done = end + 1
    return words


def lying_over(rng, starts):
    """Words in which a right entry starts at each of these, in rising order from 0."""
    while True:
        words = tried_over(rng, starts)
        if words is not None:
            return words


def overlapping(rng, by):
    """The words of two right entries, the second of which starts 1 to 15 words after the first."""
    return lying_over(rng, (0, by))


def overlapping_first_damaged(rng, by):
    """The same, with a bit of the first one flipped before the second one starts."""
    words, k = overlapping(rng, by), rng.randrange(by)
    words[k] = signed(words[k] ^ 1 << rng.randrange(64))
    return words


def straddling(rng, by):
    """The words of two right entries end to end, and of a third that starts 3 to 15 words after the first and lies over both."""
    return lying_over(rng, (0, by, ENTRY_WORDS))


OVERLAPS = {'an overlap': (overlapping, range(1, 16)), 'an overlap, the first damaged': (overlapping_first_damaged, range(1, 16)), 'an entry over two': (straddling, range(3, 16))}


def with_overlap(name):
    """The damage that puts such words between two entries of a file, before it or after it."""
    def put(rng, data):
        make, offsets = OVERLAPS[name]
        words = make(rng, rng.choice(offsets))
        return with_bytes(data, ENTRY_BYTES * rng.randint(0, len(data) // ENTRY_BYTES), struct.pack('<%dq' % len(words), *words))
    return put


# ---- noise, which holds no file
def noise(rng, data):
    return rng.randbytes(rng.randint(1, len(data)))


def noise_of_words(rng, data):
    return struct.pack('<%dq' % (len(data) // STEP), *(rng.choice(EXTREME) for _ in range(len(data) // STEP)))


def small_words(rng, data):
    """0 to 4: kinds and places are often right."""
    return struct.pack('<%dq' % (len(data) // STEP), *(rng.randint(0, 4) for _ in range(len(data) // STEP)))


def small_words_that_add_up(rng, data):
    """0 to 3, most of them 0, and often a word that is the sum of the fifteen before it: right entries lie over each other, two or more."""
    words = []
    for _ in range(len(data) // STEP):
        words.append(signed(sum(words[-SUM:])) if rng.random() < 0.15 else rng.choice((0, 0, 0, 1, 2, 3)))
    return struct.pack('<%dq' % len(words), *words)


def one_word_throughout(rng, data):
    """Of 1 each 128 bytes have a right kind and place and no word that must be 0, so that only the sum tells; of 0 no kind is right."""
    return struct.pack('<q', rng.choice((1, 1, 0, 2, 3, -1))) * (len(data) // STEP)


def sparse_entries(rng, data):
    """Each entry by itself, with 0, 8 or more bytes of noise between them."""
    return b''.join(rng.randbytes(rng.choice((0, STEP, STEP, 16, 120, 128))) + packed([row]) for row in rows(data)) + rng.randbytes(rng.choice((0, STEP, 3)))


def nothing(rng, data):
    return b''


BROKEN = {
    'cut in a word': cut_in_a_word, 'cut in an entry': cut_in_an_entry, 'a few bytes lost': a_few_bytes_lost, 'words lost': words_lost,
    'as much as entries lost': as_much_as_entries_lost, 'a few bytes put in': a_few_bytes_put_in, 'words put in': words_put_in,
    'as much as entries put in': as_much_as_entries_put_in, 'zeroed': zeroed, 'overwritten': overwritten, 'several holes': several_holes, 'out of step': out_of_step,
    'in step again': in_step_again, 'lost and put in': lost_and_put_in, 'halves exchanged': halves_exchanged, 'repeated': repeated, 'sent anew': sent_anew,
    'around a file': around_a_file, 'a tail': a_tail, 'a wrong kind': wrong_kind, 'a wrong place': wrong_place, 'a wrong zero': wrong_zero, 'a wrong sum': wrong_sum,
    'wrong pointers': wrong_pointers, **{name: with_overlap(name) for name in OVERLAPS}, 'noise': noise, 'noise of words': noise_of_words,
    'small words': small_words, 'small words that add up': small_words_that_add_up, 'one word throughout': one_word_throughout, 'sparse entries': sparse_entries,
    'nothing': nothing}
