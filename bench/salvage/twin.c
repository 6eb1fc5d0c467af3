/* A plain C salvage of a damaged file, for the comparison of speed: goes over the file twice, first to count what is kept and skipped, then to write it. */
#include "twin.h"

#include <string.h>

enum { BASELINE = 1, HEIGHT_DIFFERENCE = 2, STRIKE = 3, PLACES = 256, STEP = 8, WORDS = 16, ENTRY = 128, TRAILER = 24, PAIR = 16, NO_ROOM = 10 };

/* Whether the entry of these words has a right kind, place and sum, and 0 in the words that its kind does not use. */
static int good(const uint64_t w[WORDS]) {
    uint64_t sum = 0;
    int k;
    if (w[1] - 1 >= PLACES) {
        return 0;
    }
    switch (w[0]) {
    case BASELINE: break;
    case HEIGHT_DIFFERENCE:
        if (w[4] | w[5] | w[7] | w[8] | w[9] | w[10] | w[11]) {
            return 0;
        }
        break;
    case STRIKE:
        if (w[2] | w[3] | w[4] | w[5] | w[6] | w[7] | w[8] | w[9] | w[10] | w[11] | w[12]) {
            return 0;
        }
        break;
    default: return 0;
    }
    for (k = 0; k < WORDS - 1; k++) {
        sum += w[k];
    }
    return w[WORDS - 1] == sum;
}

/* The start of the next entry to keep from a byte on, and its words; the length of the file where there is none. */
static size_t next_kept(const uint8_t *file, size_t bytes, size_t at, uint64_t w[WORDS]) {
    uint64_t kind; /* looked at first: most steps that are not kept have a wrong one */
    for (; at + ENTRY <= bytes; at += STEP) {
        memcpy(&kind, file + at, sizeof kind);
        if (kind - BASELINE > STRIKE - BASELINE) {
            continue;
        }
        memcpy(w, file + at, ENTRY);
        if (good(w)) {
            return at;
        }
    }
    return bytes;
}

static void put_pair(uint8_t *list, size_t k, uint64_t first, uint64_t second) {
    uint64_t pair[2] = {first, second};
    memcpy(list + PAIR * k, pair, sizeof pair);
}

/* Writes the kept entry of these words as entry k of the fresh file. Its sum was right: the new one differs by the two words before it. */
static void put_fresh(uint8_t *fresh, size_t k, uint64_t w[WORDS]) {
    uint64_t start = (uint64_t)ENTRY * k, previous = k ? start - TRAILER : UINT64_MAX;
    w[15] += start - w[13] + previous - w[14];
    w[13] = start, w[14] = previous;
    memcpy(fresh + start, w, ENTRY);
}

static void count(const uint8_t *file, size_t bytes, size_t *runs, size_t *entries) {
    uint64_t w[WORDS];
    size_t end = 0, at; /* the end of the latest kept entry */
    *runs = *entries = 0;
    while ((at = next_kept(file, bytes, end, w)) < bytes) {
        *runs += at > end;
        ++*entries;
        end = at + ENTRY;
    }
    *runs += bytes > end;
}

static void put_all(const struct salvage *s) {
    uint64_t w[WORDS];
    size_t end = 0, runs = 0, entries = 0, at;
    while ((at = next_kept(s->damaged, s->damaged_bytes, end, w)) < s->damaged_bytes) {
        if (at > end) {
            put_pair(s->skipped, runs++, end, at - end);
        }
        put_pair(s->kept, entries, at, (uint64_t)ENTRY * entries);
        put_fresh(s->fresh, entries++, w);
        end = at + ENTRY;
    }
    if (s->damaged_bytes > end) {
        put_pair(s->skipped, runs++, end, s->damaged_bytes - end);
    }
    put_pair(s->counts, 0, runs, entries);
}

int64_t twin_salvage(const struct salvage *s) {
    size_t runs, entries;
    count(s->damaged, s->damaged_bytes, &runs, &entries);
    if (s->fresh_bytes < ENTRY * entries || s->skipped_bytes < PAIR * runs || s->kept_bytes < PAIR * entries || s->counts_bytes < PAIR) {
        return NO_ROOM;
    }
    put_all(s);
    return 0;
}
