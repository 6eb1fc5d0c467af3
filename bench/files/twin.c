/* A plain C reading of a file of entries, for the comparison of speed: 1 where it reads. */
#include <stddef.h>
#include <stdint.h>
#include <string.h>

enum { BASELINE = 1, HEIGHT_DIFFERENCE = 2, STRIKE = 3, PLACES = 256, ENTRY = 128, TRAILER = 24 };

/* Whether the entry of these words, which starts at that byte, is by the rules. */
static int good(const int64_t w[16], int64_t start) {
    uint64_t sum = 0;
    int k;
    switch (w[0]) {
    case BASELINE: break;
    case HEIGHT_DIFFERENCE:
        if (w[4] | w[5] | w[7] | w[8] | w[9] | w[10] | w[11]) {
            return 0;
        }
        break;
    case STRIKE:
        if (w[2] | w[3] | w[4] | w[5] | w[6] | w[7] | w[8] | w[9] | w[10] | w[11] | w[12]) {
            return 0;
        }
        break;
    default: return 0;
    }
    for (k = 0; k < 15; k++) {
        sum += (uint64_t)w[k];
    }
    return w[1] >= 1 && w[1] <= PLACES && w[13] == start && w[14] == (start ? start - TRAILER : -1) && (uint64_t)w[15] == sum;
}

int twin_reads(const uint8_t *file, size_t bytes) {
    int64_t w[16];
    size_t at;
    if (bytes % ENTRY) {
        return 0;
    }
    for (at = 0; at < bytes; at += ENTRY) {
        memcpy(w, file + at, sizeof w);
        if (!good(w, (int64_t)at)) {
            return 0;
        }
    }
    return 1;
}
