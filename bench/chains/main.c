/* Test 2 of a check beside plain C, at full size and on a line of stations that takes many passes over the places. First the two answer alike on both books, and on random ones.
 *
 * No call does test 2 alone. A pair whose first correction is 100,001 passes tests 1 and 2, and test 3 refuses it at its first number, with 12; with M a word short test 1 refuses it,
 * with 10. What the second call takes is taken off: the 25 test, and all that is read before test 1 (x, M, stations, places, N, u). So left are test 2, the first step of test 3, one word
 * of M, and whatever else the library does between tests 1 and 3. */
#include "../full.h"
#include "../untied.h"
#include <stdlib.h>

enum { BOOKS = 600, LEAST_OF_EACH = 80 /* of tied books, and of others */ };
enum { ROUNDS = 1000, TIMES = 40 /* in a round */ };

int64_t twin_untied(const int64_t *book, const int at[96]);

static int64_t x[N] = {100001}, m[N * N], refused;
static int at[96];

static int64_t check(int n, int words_short) { return dombrelat_check((uint8_t *)book, sizeof book, (uint8_t *)x, 8 * n, (uint8_t *)m, 8 * (n * n - words_short)); }

static void library(int k) {
    (void)k;
    refused |= check(N, 0) != DOMBRELAT_LARGE_CORRECTION;
}

static void without_test_2(int k) {
    (void)k;
    refused |= check(N, 1) != DOMBRELAT_BAD_LENGTHS;
}

static void plain(int k) {
    (void)k;
    refused |= twin_untied(book, at);
}

/* Enters a record that agrees with stations at 0, 0, 0; a position at `to`. */
static int64_t enter(int kind, int place, int from, int to) {
    uint8_t *bytes = (uint8_t *)book;
    if (kind == POSITION) {
        return dombrelat_enter_position(bytes, sizeof book, place, to, 0, 0, 0, 100, 3, -2, 120, 1, 90);
    }
    if (kind == HEIGHT_DIFFERENCE) {
        return dombrelat_enter_height(bytes, sizeof book, place, from, to, 0, 100);
    }
    return dombrelat_enter_baseline(bytes, sizeof book, place, from, to, 0, 0, 0, 100, 3, -2, 120, 1, 90, 0, 0);
}

/* A line from station 1, which has a position, to 32, the last eight of them free and the others height stations. The records next to station 32 have the first places and those next to
 * station 1 the last, each eight or nine times: a pass over the places in rising order finds one station more. They take 31 passes in U and 8 in E and in N, and a last one in each. 0 where
 * nothing was refused. */
static int64_t fill_line(void) {
    int64_t stations[32][4] = {{0}}, bad;
    for (int k = 0; k < 32; k++) {
        stations[k][0] = k < 24 ? DOMBRELAT_HEIGHT : DOMBRELAT_FREE;
    }
    bad = dombrelat_open((uint8_t *)stations, sizeof stations, (uint8_t *)book, sizeof book);
    for (int k = 0; k < 255; k++) {
        int from = 31 - k * 31 / 255;
        bad |= enter(BASELINE, k + 1, from, from + 1);
    }
    return bad | enter(POSITION, 256, 1, 1);
}

/* A number from 0 to n - 1, from a fixed seed. */
static int below(int n) {
    static uint64_t state = 20261120;
    state = state * 6364136223846793005u + 1442695040888963407u;
    return (int)((state >> 33) % (uint64_t)n);
}

/* A kind of station: known in `known` of 8, and free where `most` unknowns leave room for it. */
static int station_kind(int known, int most) {
    if (below(8) < known) {
        return DOMBRELAT_KNOWN;
    }
    return most >= 3 && below(2) ? DOMBRELAT_FREE : DOMBRELAT_HEIGHT;
}

/* A kind of record: a position in `positions` of 16, of the others a height difference in `heights` of 4. */
static int record_kind(int positions, int heights) {
    if (below(16) < positions) {
        return POSITION;
    }
    return below(4) < heights ? HEIGHT_DIFFERENCE : BASELINE;
}

/* A book of 1 to 32 stations, the first not known, and up to three times as many records; the shares of the kinds are others in each book. 0 where nothing was refused. */
static int64_t fill_at_random(void) {
    int64_t stations[32][4] = {{0}}, bad;
    int count = 1 + below(32), left = N, known = below(4), positions = below(3), heights = below(4);
    for (int k = 0; k < count; k++) {
        int kind = station_kind(k ? known : 0, left - (count - 1 - k));
        stations[k][0] = kind;
        left -= kind == DOMBRELAT_FREE ? 3 : kind == DOMBRELAT_HEIGHT;
    }
    bad = dombrelat_open((uint8_t *)stations, 32 * (size_t)count, (uint8_t *)book, sizeof book);
    for (int k = below(3 * count + 1); k > 0; k--) {
        int from = 1 + below(count), to = 1 + below(count), kind = record_kind(positions, heights);
        bad |= enter(from == to ? POSITION : kind, 1 + below(256), from, to);
    }
    return bad;
}

/* Whether both answer alike on the book; counts it by whether it is tied. */
static int alike(int books[2]) {
    int n = unknowns_in(book, at);
    int64_t first = twin_untied(book, at);
    books[first == 0]++;
    return check(n, 0) == (first ? first : DOMBRELAT_LARGE_CORRECTION);
}

static int all_alike(void) {
    int books[2] = {0, 0}, same = 1;
    for (int k = 0; k < BOOKS; k++) {
        same &= !fill_at_random() && alike(books);
    }
    return same && books[0] >= LEAST_OF_EACH && books[1] >= LEAST_OF_EACH;
}

static int by_size(const void *a, const void *b) {
    double d = *(const double *)a - *(const double *)b;
    return (d > 0) - (d < 0);
}

/* The time of one call of each of three functions that take turns: what a twentieth of the rounds stay below. The least of them, which other benchmarks take, would not do for a
 * difference that is a small part of both times, since the clock gives a single round too little time now and then. */
static void low_times(void (*const calls[])(int), double low[3]) {
    static double taken[3][ROUNDS];
    for (int turn = 0; turn < 3 * ROUNDS; turn++) {
        double from = now();
        for (int k = 0; k < TIMES; k++) {
            calls[turn % 3](k);
        }
        taken[turn % 3][turn / 3] = (now() - from) / TIMES;
    }
    for (int which = 0; which < 3; which++) {
        qsort(taken[which], ROUNDS, sizeof(double), by_size);
        low[which] = taken[which][ROUNDS / 20];
    }
}

/* Compares and times the two on the book, which is tied. 0 where they agree. */
static int measure(const char *what, double budget) {
    void (*const calls[])(int) = {library, without_test_2, plain};
    double low[3];
    int books[2] = {0, 0};
    if (!alike(books) || !books[1]) {
        return 1;
    }
    low_times(calls, low);
    report(what, low[0] - low[1], low[2], budget);
    return refused != 0;
}

int main(void) {
    if (!all_alike() || fill(1) || measure("test 2 at full size", 2) || fill_line() || measure("test 2 where each pass finds one station", 2)) {
        return fail("chains: the two differ, a record is refused, or a check is refused with another number");
    }
    return 0;
}
