/* An edit on a full book through C (whole 25 test, edit, write back) against twin.c. The two books are compared byte for byte. */
#include "../../include/dombrelat.h"
#include "../common.h"
#include <string.h>

int64_t twin_enter(uint8_t *bytes, size_t n, int64_t place, const int64_t r[14]);

static _Alignas(8) uint8_t book[DOMBRELAT_BOOK_BYTES], other[DOMBRELAT_BOOK_BYTES];
static int64_t record[14] = {0, 0, 0, 0, 0, 0, 100, 3, -2, 120, 1, 90, 0, 0}, refused; /* as dombrelat_record gives it */

/* A baseline from antenna to antenna, or for each eighth k a position. */
static void choose(int k) {
    int position = k % 8 == 5;
    record[0] = position ? 4 : 1;
    record[1] = 1 + k % 32;
    record[2] = position ? 0 : 1 + (k * 7 + 3) % 32 == record[1] ? 1 + record[1] % 32 : 1 + (k * 7 + 3) % 32;
    record[12] = position ? 0 : 150000 + k % 79, record[13] = position ? 0 : 150000 - k % 73;
    record[3] = k % 97, record[4] = -(k % 89), record[5] = k % 83 - record[12] + record[13];
}

static void library(int k) {
    const int64_t *r = record;
    choose(k);
    refused |= r[0] == 4 ? dombrelat_enter_position(book, sizeof book, 1 + k % 256, r[1], r[3], r[4], r[5], r[6], r[7], r[8], r[9], r[10], r[11])
                         : dombrelat_enter_baseline(book, sizeof book, 1 + k % 256, r[1], r[2], r[3], r[4], r[5], r[6], r[7], r[8], r[9], r[10], r[11], r[12], r[13]);
}

static void plain(int k) {
    choose(k);
    refused |= twin_enter(other, sizeof other, 1 + k % 256, record);
}

int main(void) {
    void (*const calls[])(int) = {library, plain};
    double best[2];
    int64_t stations[32][4];
    for (int k = 0; k < 32; k++) {
        stations[k][0] = k < 14 ? DOMBRELAT_FREE : k < 20 ? DOMBRELAT_HEIGHT : DOMBRELAT_KNOWN;
        stations[k][1] = k * 10, stations[k][2] = -k * 10, stations[k][3] = k;
    }
    refused = dombrelat_open((const uint8_t *)stations, sizeof stations, book, sizeof book);
    for (int k = 0; k < 256; k++) {
        library(k);
    }
    memcpy(other, book, sizeof book);
    least(calls, 2, 100, 256, best);
    if (refused || memcmp(book, other, sizeof book)) {
        return fail("host: an edit is refused, or the two books differ");
    }
    report("an edit on a full book through C", best[0], best[1], 2);
    return 0;
}
