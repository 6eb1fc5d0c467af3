/* Test 2 in plain C, which two benchmarks share: on a book's bytes as an array of int64_t (the layout of docs/BOOK.md). It trusts the book. */
#include <stdint.h>

enum { STATIONS = 2, PLACES = 130 };
enum { BASELINE = 1, HEIGHT_DIFFERENCE = 2, POSITION = 4 }; /* the first word of a record */

static inline const int64_t *record(const int64_t *book, int p) { return book + PLACES + 14 * p; }

/* Numbers the unknowns from 0, by station and then E, N, U; -1 where a component is held or its station is not in the list. Returns how many there are. */
static inline int unknowns_in(const int64_t *book, int at[96]) {
    int n = 0;
    for (int q = 0; q < 96; q++) {
        int64_t kind = book[STATIONS + 4 * (q / 3)];
        at[q] = kind == 2 || (kind == 3 && q % 3 == 2) ? n++ : -1;
    }
    return n;
}

/* the first component without a chain, 96 where all are tied */
static inline int untied(const int64_t *book, const int at[96]) {
    uint32_t reached[3], with_position = 0;
    int c, p, q;
    for (p = 0; p < 256; p++) {
        const int64_t *r = record(book, p);
        if (r[0] == POSITION) {
            with_position |= 1u << (r[1] - 1);
        }
    }
    for (c = 0; c < 3; c++) {
        uint32_t w = with_position, before;
        for (q = 0; q < 32; q++) {
            if (at[3 * q + c] < 0) {
                w |= 1u << q;
            }
        }
        do {
            before = w;
            for (p = 0; p < 256; p++) {
                const int64_t *r = record(book, p);
                if (r[0] == BASELINE || (r[0] == HEIGHT_DIFFERENCE && c == 2)) {
                    uint32_t ends = 1u << (r[1] - 1) | 1u << (r[2] - 1);
                    if (w & ends) {
                        w |= ends;
                    }
                }
            }
        } while (w != before);
        reached[c] = w;
    }
    for (q = 0; q < 96; q++) {
        if (at[q] >= 0 && !(reached[q % 3] >> (q / 3) & 1)) {
            return q;
        }
    }
    return 96;
}
