"""Salvage of a damaged file, an independent implementation of request 7 of document 02, for the tests: written from its words, with no thought for speed. Each byte of the damaged file is
marked kept or skipped, and the runs are read off the marks; the fresh file is written by files.py."""
import itertools
import struct

from files import ENTRY_BYTES, KIND, NO_ROOM, PLACE, PLACES, USED, signed, write

STEP = 8
START, SUM = 13, 15                                    # the first and the last word of a trailer
PAIR_BYTES = 16                                        # of two words: an item of a list, and the counts


def faults(words):
    """What of sixteen words is not as request 6 has it, by name. The first two words of the trailer are not looked at, but count in the sum."""
    found = []
    if words[KIND] not in USED:
        found.append('kind')
    elif any(words[k] for k in range(START) if k not in USED[words[KIND]]):
        found.append('zeros')
    if not 1 <= words[PLACE] <= PLACES:
        found.append('place')
    if words[SUM] != signed(sum(words[:SUM])):
        found.append('sum')
    return found


def words_at(data, at):
    """The sixteen words from that byte on; None where there are fewer."""
    return struct.unpack_from('<16q', data, at) if at + ENTRY_BYTES <= len(data) else None


def kept_starts(data):
    """Where the kept entries start: forward by steps of 8 bytes, and past each entry that is kept."""
    found, at = [], 0
    while at < len(data):
        words = words_at(data, at)
        if words is not None and not faults(words):
            found.append(at)
            at += ENTRY_BYTES
        else:
            at += STEP
    return found


def skipped_runs(data, starts):
    """(start, length) of each longest run of bytes that are in no kept entry."""
    kept = bytearray(len(data))
    for at in starts:
        kept[at:at + ENTRY_BYTES] = b'\1' * ENTRY_BYTES
    found, at = [], 0
    for mark, run in itertools.groupby(kept):
        length = sum(1 for _ in run)
        if not mark:
            found.append((at, length))
        at += length
    return found


class Salvaged:
    """What salvage finds in the bytes: the entries kept, their starts, the runs skipped and the fresh file."""

    def __init__(self, data):
        starts = kept_starts(data)
        self.entries = [words_at(data, at)[:START] for at in starts]
        self.skipped = skipped_runs(data, starts)
        self.kept = [(at, ENTRY_BYTES * k) for k, at in enumerate(starts)]
        self.fresh = write(self.entries)

    def written(self):
        """What is written on the fresh file, on both lists and on the counts."""
        pairs = (self.skipped, self.kept, [(len(self.skipped), len(self.kept))])
        return [self.fresh, *(b''.join(struct.pack('<2Q', *pair) for pair in listed) for listed in pairs)]

    def answer(self, rooms):
        """(0, what is written on the four slices), or (its refusal, nothing on each), where so many bytes are lent for each."""
        written = self.written()
        if any(room < len(data) for room, data in zip(rooms, written)):
            return NO_ROOM, [b''] * len(written)
        return 0, written


def most_room(length):
    """The bytes that suffice for any damaged file of that length, for the four slices: as many as it has, and a run before, between and after the entries that fit into it."""
    listed = PAIR_BYTES * (length // ENTRY_BYTES + 1)
    return [length, listed, listed, PAIR_BYTES]
