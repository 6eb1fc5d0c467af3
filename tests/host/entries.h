/* Files of entries made in C, for tests/host/stack.c, bench/files and bench/salvage. docs/FILES.md has the words of an entry. */
#include <stddef.h>
#include <stdint.h>
#include <string.h>

enum { ENTRY_WORDS = 16, ENTRY_BYTES = 128, TRAILER_BYTES = 24 };

/* The sum of an entry's words but the last, modulo 2^64. */
static inline int64_t sum_of(const int64_t word[ENTRY_WORDS]) {
    uint64_t sum = 0;
    int64_t found;
    for (int k = 0; k < ENTRY_WORDS - 1; k++) {
        sum += (uint64_t)word[k];
    }
    memcpy(&found, &sum, sizeof found);
    return found;
}

/* Writes entry k of a file: of each kind in turn, at each place in turn. On stations 1 to 32 at (10 s, -10 s, s), s counted from 0, its baselines and height differences are by the
 * rules. */
static inline void put_entry(uint8_t *file, int k) {
    int64_t from = 1 + k % 32, to = 1 + (k * 7 + 3) % 32, start = (int64_t)ENTRY_BYTES * k, word[ENTRY_WORDS] = {1 + k % 3, 1 + k % 256};
    to = to == from ? 1 + from % 32 : to;
    if (word[0] != 3) {
        word[2] = from, word[3] = to, word[6] = to - from + k % 5, word[12] = 90;
    }
    if (word[0] == 1) {
        word[4] = 10 * (to - from), word[5] = 10 * (from - to);
        word[7] = 100, word[8] = 3, word[9] = -2, word[10] = 120, word[11] = 1;
    }
    word[13] = start, word[14] = k == 0 ? -1 : start - TRAILER_BYTES, word[15] = sum_of(word);
    memcpy(file + start, word, sizeof word);
}

/* Writes a file of so many entries, and gives its length. */
static inline size_t put_file(uint8_t *file, int count) {
    for (int k = 0; k < count; k++) {
        put_entry(file, k);
    }
    return (size_t)ENTRY_BYTES * (size_t)count;
}
