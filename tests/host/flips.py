"""Every single-bit flip of one full book, through tests/host/flips.c: 25, or a book by the rules as layout.judge reads them. Each flip that is not refused is judged, and a
sample of those that are, all flips of a position at a place and of one in the journal among them. All flips count as one test, which fails too where it meets less than coverage.py
asks; the line before the last says how many were tried. Prints 'N passed, M failed' last.

    python3 tests/host/flips.py FLIPS FOLDER
"""
import functools
import multiprocessing
import os
import random
import struct
import subprocess
import sys

from arguments import RECORDS, Arguments
from coverage import FLIPS, Coverage
from layout import BYTES, HEIGHTS_AT, MATRIX_AT, NEXT_AT, PLACES_AT, SLOTS_AT, TO_AT, WORDS, Book, judge

PARTS = {'stations': (0, PLACES_AT), 'places': (PLACES_AT, NEXT_AT), 'journal': (NEXT_AT, MATRIX_AT), 'normals': (MATRIX_AT, BYTES // 8)}      # words of each
STEPS = {'stations': 13, 'places': 241, 'journal': 7, 'normals': 241}      # every so many bits of a part are judged; most flips that read are in the journal


def full_book():
    """32 stations, 48 unknowns, 256 records of all kinds, and a journal that has gone round."""
    rng = random.Random(7)
    rows = [(1 if k < 12 else 2 if k < 26 else 3, *(rng.randint(-400_000, 400_000) for _ in range(3))) for k in range(32)]
    rows = [(k if k != 2 or i < 26 else 3, *v) for i, (k, *v) in enumerate(rows)]
    book = Book(rows)
    while book.net.n > 48 or book.net.n < 48:
        rows[rng.randrange(32)] = (rng.choice([1, 2, 3]), *(rng.randint(-400_000, 400_000) for _ in range(3)))
        book = Book(rows)
    arguments = Arguments(rng)
    for place in list(range(1, 257)) + list(range(1, 257, 5)):
        kind = ('height', 'baseline', 'baseline', 'position', 'height', 'baseline')[place % 6]
        refused = book.edit('enter', place, arguments.by_the_rules(book.net, kind, *rng.sample(range(1, 33), 2), 500))
        assert not refused
    return book


def fits_flipped(data, bit):
    """whether the reference takes the bytes with one bit flipped for a book by the rules"""
    damaged = bytearray(data)
    damaged[bit // 8] ^= 1 << bit % 8
    return judge(bytes(damaged)) is not None


def part_of(bit):
    return next(part for part, (start, end) in PARTS.items() if 64 * start <= bit < 64 * end)


def in_record(bit):
    """(the first word of the record that the bit is in, at a place or in the journal, and which word of it the bit is in); None where it is in none"""
    word = bit // 64
    if PLACES_AT <= word < NEXT_AT:
        at = (word - PLACES_AT) % 14
    elif SLOTS_AT <= word < MATRIX_AT and (word - SLOTS_AT) % 15:
        at = (word - SLOTS_AT) % 15 - 1
    else:
        return None
    return word - at, at


def names_of(words, bit):
    """What the bit is part of."""
    names = [part_of(bit)]
    start, at = in_record(bit) or (0, None)
    if at is not None and at >= HEIGHTS_AT:
        names.append('antenna heights')
    if at is not None and words[start] == RECORDS['a position']:
        names.append({0: 'kind of a position', TO_AT: 'to of a position'}.get(at, 'another word of a position'))
    return names


def sample(words):
    """Every so many bits of each part, and all of the first position in the places and in the journal."""
    bits = {bit for part, (start, end) in PARTS.items() for bit in range(64 * start, 64 * end, STEPS[part])}
    for starts in (range(PLACES_AT, NEXT_AT, 14), range(SLOTS_AT + 1, MATRIX_AT, 15)):
        first = next(at for at in starts if words[at] == RECORDS['a position'])
        bits |= set(range(64 * first, 64 * (first + 14)))
    return bits


def tried(flips, path):
    """(flips that were tried, the bits of those that read, lines that say what is wrong)"""
    ran = subprocess.run([flips, path], stdout=subprocess.PIPE, text=True)
    lines = ran.stdout.split('\n')[:-1]
    last = lines.pop() if lines and lines[-1].startswith('tried ') else 'tried 0'
    wrong = [line for line in lines if not line.isdigit()]
    if ran.returncode:
        wrong.append('flips ended with %d' % ran.returncode)
    return int(last.split()[1]), {int(line) for line in lines if line.isdigit()}, wrong


def main():
    flips, folder = sys.argv[1:3]
    path = os.path.join(folder, 'full.book')
    data = full_book().bytes()
    with open(path, 'wb') as f:
        f.write(data)
    count, read, wrong = tried(flips, path)
    words = struct.unpack('<%dq' % WORDS, data)
    bits = sorted(read | sample(words)) if not wrong else []
    with multiprocessing.Pool() as pool:
        fits = pool.map(functools.partial(fits_flipped, data), bits, chunksize=64)
    coverage = Coverage()
    coverage.note('flips', 'tried', count)
    for bit, fit in zip(bits, fits):
        for name in names_of(words, bit):
            coverage.note('flips that read, judged' if bit in read else 'refused flips, judged', name)
        if fit != (bit in read):
            wrong.append('bit %d %s' % (bit, 'is refused, and holds a book' if fit else 'is not refused, and holds no book'))
    wrong += coverage.shortfalls(FLIPS)
    print('\n'.join(wrong + [coverage.text()]))
    print('%d flips tried, %d of them read as another book' % (count, len(read)))
    print('0 passed, 1 failed' if wrong else '1 passed, 0 failed')


main()
