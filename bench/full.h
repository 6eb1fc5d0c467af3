/* A book of full size through the C calls: 32 stations, 48 unknowns, 256 records. */
#include "../include/dombrelat.h"
#include "common.h"

enum { N = 48, MATRIX = 4676, RIGHT = 6980 };

static int64_t book[DOMBRELAT_BOOK_BYTES / 8];

/* Opens it and fills the places with baselines from antenna to antenna and, in each eighth, a position, or also with a height difference in each fourth place. 0 where nothing was
 * refused. */
static inline int64_t fill(int heights) {
    int64_t stations[32][4], refused;
    uint8_t *bytes = (uint8_t *)book;
    for (int k = 0; k < 32; k++) {
        stations[k][0] = k < 12 ? DOMBRELAT_FREE : k < 24 ? DOMBRELAT_HEIGHT : DOMBRELAT_KNOWN;
        stations[k][1] = 1000 * k, stations[k][2] = -1000 * k, stations[k][3] = 10 * k;
    }
    refused = dombrelat_open((uint8_t *)stations, sizeof stations, bytes, sizeof book);
    for (int k = 0; k < 256; k++) {
        int f = k % 32, t = (k * 7 + 3 + k / 32) % 32;
        int64_t *s, d[3], from_height = 150000 + 7 * k, to_height = 150000 - 11 * k;
        t = t == f ? (t + 1) % 32 : t;
        s = stations[t];
        d[0] = s[1] - stations[f][1] + k % 17, d[1] = s[2] - stations[f][2] - k % 13, d[2] = s[3] - stations[f][3] + k % 11;
        if (k % 8 == 5) {
            refused |= dombrelat_enter_position(bytes, sizeof book, k + 1, t + 1, s[1] + k % 17, s[2] - k % 13, s[3] + k % 11, 100 + k, 3, -2, 120, 1, 90);
        } else if (heights && k % 4 == 3) {
            refused |= dombrelat_enter_height(bytes, sizeof book, k + 1, f + 1, t + 1, d[2], 50 + k);
        } else {
            refused |= dombrelat_enter_baseline(bytes, sizeof book, k + 1, f + 1, t + 1, d[0], d[1], d[2] - from_height + to_height, 100 + k, 3, -2, 120, 1, 90,
                                                from_height, to_height);
        }
    }
    return refused;
}
