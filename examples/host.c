/* A small levelling network with a GNSS baseline and a national mark, from the station list to the printed sheet and two taped distances held against it. All that a program needs
 * is include/dombrelat.h. At the repository's root:
 *
 *     (cd crates/dombrelat && rt lib) && mkdir -p target
 *     gcc -std=c99 -Wall -Wextra -Iinclude examples/host.c crates/dombrelat/out/libdombrelat.a -o target/host && target/host
 *
 * It treats an array of int64_t as the bytes of words, which holds on a little-endian machine. */
#include "dombrelat.h"

#include <inttypes.h>
#include <stdio.h>
#include <stdlib.h>

#define RECORDS 5

/* A benchmark that is held, and three new points whose heights are known to a decimetre or so. Lengths are in units of 0.01 mm. */
static const int64_t stations[][4] = {
    {DOMBRELAT_KNOWN, 0, 0, 10000000},
    {DOMBRELAT_HEIGHT, 2500000, 1000000, 10120000},
    {DOMBRELAT_HEIGHT, 4000000, -500000, 10245000},
    {DOMBRELAT_HEIGHT, 1500000, -2000000, 9930000},
};

/* Levelled height differences: from, to, difference, weight (100: a standard deviation of 1 mm). */
static const int64_t levels[RECORDS][4] = {
    {1, 2, 120180, 400}, {2, 3, 124940, 400}, {3, 4, -314850, 100}, {4, 1, 69730, 400}, {2, 4, -189960, 100},
};

/* A GNSS baseline from antenna to antenna: from, to, differences in E, N, U, weights, then the heights of the two antennas above their marks. */
static const int64_t gnss[] = {1, 3, 4000120, -500090, 239850, 25, 0, 0, 25, 0, 16, 154320, 148910};

/* The last point is a national mark too. It comes with a position and how well that is known: station, E, N, U, weights (25: a standard deviation of 2 mm). */
static const int64_t national[] = {4, 1500140, -2000210, 9930060, 25, 0, 0, 25, 0, 25};

/* Slope distances that the crew taped after setting out: from, to, distance, heights of instrument and target above their marks, tolerance. The second was read 10 cm too long. */
static const int64_t taped[][6] = {
    {1, 2, 2695500, 155000, 160000, 200},
    {3, 4, 2941900, 155000, 160000, 200},
};

static uint8_t book[DOMBRELAT_BOOK_BYTES];
static int64_t x[DOMBRELAT_UNKNOWNS], m[DOMBRELAT_UNKNOWNS * DOMBRELAT_UNKNOWNS], sheet[DOMBRELAT_SHEET_BYTES / 8];

/* The number that a call gives, 0 for most. A refusal ends the program. */
static int64_t number(const char *what, int64_t result) {
    if (DOMBRELAT_REFUSAL(result) != 0) {
        printf("%s: refused with %d\n", what, (int)DOMBRELAT_REFUSAL(result));
        exit(1);
    }
    return DOMBRELAT_NUMBER(result);
}

static int64_t read_stations(int64_t list[DOMBRELAT_STATIONS][4]) {
    return number("the stations", dombrelat_stations(book, sizeof book, (uint8_t *)list, DOMBRELAT_STATIONS * DOMBRELAT_STATION_BYTES));
}

static void read_record(int64_t place, int64_t record[14]) {
    number("a place", dombrelat_record(book, sizeof book, place, (uint8_t *)record, DOMBRELAT_RECORD_BYTES));
}

/* Entering at a filled place overwrites it, and an undo restores the earlier record. */
static void enter_and_undo(void) {
    int64_t record[14];
    number("a record", dombrelat_enter_height(book, sizeof book, 5, 2, 4, -189900, 100));
    read_record(5, record);
    printf("entered again, place 5 holds %" PRId64, record[5]);
    number("an undo", dombrelat_undo(book, sizeof book));
    read_record(5, record);
    printf(", and after an undo %" PRId64 "\n", record[5]);
}

/* The book keeps a baseline as it was observed; the adjustment takes the U difference from mark to mark. */
static void enter_gnss(void) {
    const int64_t *b = gnss;
    int64_t record[14];
    number("a baseline", dombrelat_enter_baseline(book, sizeof book, 6, b[0], b[1], b[2], b[3], b[4], b[5], b[6], b[7], b[8], b[9], b[10], b[11], b[12]));
    read_record(6, record);
    printf("place 6 holds a baseline: U %" PRId64 " from antenna to antenna, %" PRId64 " from mark to mark\n", record[5], record[5] + record[12] - record[13]);
}

/* A national mark is not held: its position is one record more, which the adjustment weighs against the others. */
static void enter_national(void) {
    const int64_t *p = national;
    int64_t record[14];
    number("a position", dombrelat_enter_position(book, sizeof book, 7, p[0], p[1], p[2], p[3], p[4], p[5], p[6], p[7], p[8], p[9]));
    read_record(7, record);
    printf("place 7 holds a position: station %" PRId64 ", E %" PRId64 ", N %" PRId64 ", U %" PRId64 "\n", record[1], record[3], record[4], record[5]);
}

/* Unknowns count by station, then E, N, U: a known station has none, a free one all three, a height station U alone. */
static void print_unknown(int64_t unknown) {
    int64_t list[DOMBRELAT_STATIONS][4];
    int64_t count = read_stations(list);
    int k, component;
    for (k = 0; k < count; k++) {
        int first = list[k][0] == DOMBRELAT_FREE ? 0 : list[k][0] == DOMBRELAT_HEIGHT ? 2 : 3;
        for (component = first; component < 3; component++) {
            if (--unknown == 0) {
                printf("no chain of records ties station %d in %c to a held station or to a position\n", k + 1, "ENU"[component]);
            }
        }
    }
}

static void print_sheet(const int64_t *word) {
    static const char *const verdicts[] = {"PASS", "FAIL", "LOOSE", "LOW", "HIGH", "NONE"};
    int64_t list[DOMBRELAT_STATIONS][4], record[14];
    int64_t count = read_stations(list), records = word[0];
    int k, i;
    printf("%" PRId64 " records, %" PRId64 " unknowns\n", word[0], word[1]);
    word += 2;
    printf("station    east       north      up         variance of up (over 2^30, in squares of 10 mm)\n");
    for (k = 0; k < count; k++, word += 7) {
        printf("%-10" PRId64 " %-10" PRId64 " %-10" PRId64 " %-10" PRId64 " %" PRId64 "\n", word[0], word[1], word[2], word[3], word[6]);
    }
    printf("place      in  residual   local test\n");
    for (k = 0; k < records; k++) {
        int components; /* of a height difference 1, of a baseline or a position 3 */
        read_record(word[0], record);
        components = record[0] == 2 ? 1 : 3;
        for (i = 1; i <= components; i++) {
            printf("%-10" PRId64 " %c   %-10" PRId64 " %s\n", word[0], "ENU"[components == 1 ? 2 : i - 1], word[i], verdicts[word[components + i]]);
        }
        word += 1 + 2 * components;
    }
    printf("global test: %" PRId64 " with %" PRId64 " degrees of freedom: %s\n", word[0], word[1], verdicts[word[2]]);
}

/* Whether a taped distance agrees with the sheet of x and M. One that does not is no refusal: the question was answered. */
static void print_taped(const int64_t *d, size_t x_bytes, size_t m_bytes) {
    int64_t result = dombrelat_check_distance(book, sizeof book, (const uint8_t *)x, x_bytes, (const uint8_t *)m, m_bytes, d[0], d[1], d[2], d[3], d[4], d[5]);
    const char *answer = "does not agree with the sheet: look at the stations and heights, then tape it again";
    if (result != DOMBRELAT_DISAGREES) {
        number("a taped distance", result);
        answer = "agrees with the sheet";
    }
    printf("taped from station %" PRId64 " to %" PRId64 ", %.3f m, tolerance %.0f mm: %s\n", d[0], d[1], (double)d[2] / 100000, (double)d[5] / 100, answer);
}

int main(void) {
    int64_t result, record[14];
    size_t n, x_bytes, m_bytes, sheet_bytes;
    int k;

    number("opening", dombrelat_open((const uint8_t *)stations, sizeof stations, book, sizeof book));
    n = (size_t)number("the unknowns", dombrelat_unknowns(book, sizeof book));
    x_bytes = 8 * n, m_bytes = 8 * n * n;

    for (k = 0; k < RECORDS; k++) {
        const int64_t *l = levels[k];
        if (k == 2) {
            /* Too early: nothing ties the last point yet. Test 2 comes before those of x and M, so zeros do to ask. */
            result = dombrelat_check(book, sizeof book, (const uint8_t *)x, x_bytes, (const uint8_t *)m, m_bytes);
            printf("after 2 records the check is refused with %d: ", (int)DOMBRELAT_REFUSAL(result));
            print_unknown(DOMBRELAT_UNTIED_UNKNOWN(result));
        }
        number("a record", dombrelat_enter_height(book, sizeof book, k + 1, l[0], l[1], l[2], l[3]));
    }

    /* A blunder: two metres too much are refused, and the book stays as it was. */
    result = dombrelat_enter_height(book, sizeof book, 5, 2, 4, -189960 + 200000, 100);
    read_record(5, record);
    printf("a height difference 2 m off is refused with %d, and place 5 still holds %" PRId64 "\n", (int)DOMBRELAT_REFUSAL(result), record[5]);
    enter_and_undo();
    enter_gnss();
    enter_national();

    number("a proposal", dombrelat_propose(book, sizeof book, (uint8_t *)x, x_bytes, (uint8_t *)m, m_bytes));
    sheet_bytes = (size_t)number("the sheet's bytes", dombrelat_sheet_bytes(book, sizeof book));
    number("the check", dombrelat_check_sheet(book, sizeof book, (const uint8_t *)x, x_bytes, (const uint8_t *)m, m_bytes, (uint8_t *)sheet, sheet_bytes));
    print_sheet(sheet);
    print_taped(taped[0], x_bytes, m_bytes);
    print_taped(taped[1], x_bytes, m_bytes);
    return 0;
}
