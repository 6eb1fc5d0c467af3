/* A day file and a night file: the records of a book written as a file, the changes of a night as another, which entry is in force for a place, and both files entered on a new book; then
 * the night file after a transfer that lost some of it, and what is salvaged. All that a program needs is include/dombrelat.h; docs/FILES.md has the words of an entry. At the repository's
 * root:
 *
 *     (cd crates/dombrelat && rt lib) && mkdir -p target
 *     gcc -std=c99 -Wall -Wextra -Iinclude examples/files.c crates/dombrelat/out/libdombrelat.a -o target/files && target/files
 *
 * It treats an array of int64_t as the bytes of words, which holds on a little-endian machine. */
#include "dombrelat.h"

#include <inttypes.h>
#include <stdio.h>
#include <stdlib.h>
#include <string.h>

#define ENTRY_WORDS (DOMBRELAT_ENTRY_BYTES / 8)
#define TRAILER_BYTES 24 /* the last three words of an entry */
#define NIGHT_ENTRIES 4
#define NIGHT_BYTES (NIGHT_ENTRIES * DOMBRELAT_ENTRY_BYTES)
#define LOST_AT 160 /* of the night file: within its second entry, the strike of place 4 */
#define LOST_BYTES 40

/* A benchmark that is held, and three new points. Lengths are in units of 0.01 mm. */
static const int64_t stations[][4] = {
    {DOMBRELAT_KNOWN, 0, 0, 10000000},
    {DOMBRELAT_HEIGHT, 2500000, 1000000, 10120000},
    {DOMBRELAT_HEIGHT, 4000000, -500000, 10245000},
    {DOMBRELAT_HEIGHT, 1500000, -2000000, 9930000},
};

/* Levelled height differences at places 1 to 4: from, to, difference, weight. */
static const int64_t levels[][4] = {{1, 2, 120180, 400}, {2, 3, 124940, 400}, {3, 4, -314850, 100}, {4, 1, 69730, 400}};

/* A GNSS baseline at place 5, from antenna to antenna: from, to, differences in E, N, U, weights, heights of the antennas. */
static const int64_t gnss[] = {1, 3, 4000120, -500090, 239850, 25, 0, 0, 25, 0, 16, 154320, 148910};

/* What the night brought: kind, place, from, to, height difference, weight. Place 2 was levelled anew, place 4 was of no use, place 6 is new; place 7 is 2 m off, a slip. */
static const int64_t night_work[NIGHT_ENTRIES][6] = {
    {DOMBRELAT_HEIGHT_DIFFERENCE_KIND, 2, 2, 3, 124965, 400},
    {DOMBRELAT_STRIKE_KIND, 4, 0, 0, 0, 0},
    {DOMBRELAT_HEIGHT_DIFFERENCE_KIND, 6, 4, 1, 69745, 400},
    {DOMBRELAT_HEIGHT_DIFFERENCE_KIND, 7, 2, 4, 10040, 100},
};

static uint8_t book[DOMBRELAT_BOOK_BYTES], copy[DOMBRELAT_BOOK_BYTES];
static uint8_t day[DOMBRELAT_PLACES * DOMBRELAT_ENTRY_BYTES], night[NIGHT_BYTES]; /* a book has at most so many records */
static uint8_t damaged[NIGHT_BYTES], fresh[NIGHT_BYTES];                          /* a fresh file is no longer than the damaged one */

/* The result of a call that is not refused: 0, or the length of a file. A refusal ends the program. */
static size_t done(const char *what, int64_t result) {
    if (DOMBRELAT_REFUSAL(result) != 0) {
        printf("%s: refused with %d\n", what, (int)DOMBRELAT_REFUSAL(result));
        exit(1);
    }
    return (size_t)result;
}

static int64_t enter_gnss(const int64_t *b) {
    return dombrelat_enter_baseline(book, sizeof book, 5, b[0], b[1], b[2], b[3], b[4], b[5], b[6], b[7], b[8], b[9], b[10], b[11], b[12]);
}

/* The records of the day as a file, and its length. A file has no antenna heights: a baseline is entered from mark to mark before it is written. */
static size_t write_day(void) {
    int64_t marks[13], result;
    size_t length;
    int k;
    for (k = 0; k < 4; k++) {
        const int64_t *l = levels[k];
        done("a record", dombrelat_enter_height(book, sizeof book, k + 1, l[0], l[1], l[2], l[3]));
    }
    done("a baseline", enter_gnss(gnss));
    result = dombrelat_write_file(book, sizeof book, day, sizeof day);
    printf("with antenna heights at place 5 the day file is refused with %d\n", (int)DOMBRELAT_REFUSAL(result));
    memcpy(marks, gnss, sizeof marks);
    marks[4] += marks[11] - marks[12];
    marks[11] = marks[12] = 0;
    done("a baseline", enter_gnss(marks));
    length = done("the day file", dombrelat_write_file(book, sizeof book, day, sizeof day));
    printf("the day file has %zu bytes, %zu entries\n", length, length / DOMBRELAT_ENTRY_BYTES);
    return length;
}

/* Puts an entry after those that a file has: its thirteen words, then the trailer. Gives the file's new length. */
static size_t append_entry(uint8_t *file, size_t length, const int64_t entry[13]) {
    int64_t word[ENTRY_WORDS];
    uint64_t sum = 0; /* modulo 2^64, as unsigned numbers are in C */
    int k;
    memcpy(word, entry, 13 * sizeof *word);
    word[13] = (int64_t)length;
    word[14] = length == 0 ? -1 : (int64_t)(length - TRAILER_BYTES);
    for (k = 0; k < 15; k++) {
        sum += (uint64_t)word[k];
    }
    memcpy(word + 15, &sum, sizeof sum);
    memcpy(file + length, word, sizeof word);
    return length + sizeof word;
}

/* The changes of the night as a file, and its length. Of a height difference words 6 (U) and 12 (UU) are used, of a strike the place alone: all other words are 0. */
static size_t write_night(void) {
    size_t length = 0;
    int k;
    for (k = 0; k < NIGHT_ENTRIES; k++) {
        const int64_t *n = night_work[k];
        int64_t entry[13] = {n[0], n[1], n[2], n[3], 0, 0, n[4], 0, 0, 0, 0, 0, n[5]};
        length = append_entry(night, length, entry);
    }
    done("the night file", dombrelat_check_file(night, length));
    printf("the night file has %zu bytes, %zu entries\n", length, length / DOMBRELAT_ENTRY_BYTES);
    return length;
}

/* What the clerk is shown for a place. */
static void show(int64_t place, size_t night_length, size_t day_length) {
    int64_t found[2], word[ENTRY_WORDS];
    int64_t result = dombrelat_entry_in_force(night, night_length, day, day_length, place, (uint8_t *)found, sizeof found);
    printf("place %" PRId64 ": ", place);
    if (DOMBRELAT_REFUSAL(result) == DOMBRELAT_NO_ENTRY) {
        printf("no entry\n");
        return;
    }
    done("the entry in force", result);
    memcpy(word, (found[0] == DOMBRELAT_NIGHT ? night : day) + found[1], sizeof word);
    printf("%s file, byte %" PRId64 ": ", found[0] == DOMBRELAT_NIGHT ? "night" : "day", found[1]);
    if (word[0] == DOMBRELAT_STRIKE_KIND) {
        printf("struck\n");
    } else if (word[0] == DOMBRELAT_HEIGHT_DIFFERENCE_KIND) {
        printf("height difference from %" PRId64 " to %" PRId64 ", %" PRId64 ", weight %" PRId64 "\n", word[2], word[3], word[6], word[12]);
    } else {
        printf("baseline from %" PRId64 " to %" PRId64 ", E %" PRId64 ", N %" PRId64 ", U %" PRId64 "\n", word[2], word[3], word[4], word[5], word[6]);
    }
}

/* Enters a file on the new book, and prints what became of each entry. */
static void enter(const char *name, const uint8_t *file, size_t length) {
    int64_t answers[DOMBRELAT_PLACES];
    size_t k;
    done(name, dombrelat_enter_file(copy, sizeof copy, file, length, (uint8_t *)answers, sizeof answers));
    printf("%s entered, its answers:", name);
    for (k = 0; k < length / DOMBRELAT_ENTRY_BYTES; k++) {
        printf(" %" PRId64, answers[k]);
    }
    printf("\n");
}

/* Opens the depot's book, on the same stations, and enters the day, then the night; prints what it holds. */
static void enter_both(size_t day_length, const char *night_name, const uint8_t *night_file, size_t night_length) {
    int64_t record[DOMBRELAT_RECORD_BYTES / 8], place;
    done("opening", dombrelat_open((const uint8_t *)stations, sizeof stations, copy, sizeof copy));
    enter("the day file", day, day_length);
    enter(night_name, night_file, night_length);
    printf("the depot's book holds");
    for (place = 1; place <= 7; place++) {
        done("a place", dombrelat_record(copy, sizeof copy, place, (uint8_t *)record, sizeof record));
        if (record[0] != 0) {
            printf(" %" PRId64 " (U %" PRId64 ")", place, record[5]);
        }
    }
    printf("\n");
}

/* Salvages the damaged file, prints what was skipped and what was kept, and gives the length of the fresh file. */
static size_t salvage(size_t damaged_length) {
    int64_t skipped[DOMBRELAT_SALVAGE_LIST_BYTES(NIGHT_BYTES) / 8], kept[DOMBRELAT_SALVAGE_LIST_BYTES(NIGHT_BYTES) / 8], counts[DOMBRELAT_SALVAGE_COUNTS_BYTES / 8], k;
    done("the salvage", dombrelat_salvage(damaged, damaged_length, fresh, sizeof fresh, (uint8_t *)skipped, sizeof skipped, (uint8_t *)kept, sizeof kept, (uint8_t *)counts, sizeof counts));
    for (k = 0; k < counts[0]; k++) {
        printf("skipped: %" PRId64 " bytes from byte %" PRId64 " on\n", skipped[2 * k + 1], skipped[2 * k]);
    }
    for (k = 0; k < counts[1]; k++) {
        printf("kept: the entry at byte %" PRId64 ", in the fresh file at byte %" PRId64 "\n", kept[2 * k], kept[2 * k + 1]);
    }
    return (size_t)counts[1] * DOMBRELAT_ENTRY_BYTES;
}

int main(void) {
    size_t day_length, night_length, damaged_length, fresh_length;

    done("opening", dombrelat_open((const uint8_t *)stations, sizeof stations, book, sizeof book));
    day_length = write_day();
    night_length = write_night();
    show(2, night_length, day_length);
    show(4, night_length, day_length);
    show(5, night_length, day_length);
    show(9, night_length, day_length);

    /* A transfer that was cut off within an entry: the file does not read, and nothing is entered. */
    printf("the night file without its last byte is refused with %d\n", (int)DOMBRELAT_REFUSAL(dombrelat_check_file(night, night_length - 1)));

    enter_both(day_length, "the night file", night, night_length);

    /* A transfer that lost bytes in the middle. What it left does not read, and all entries but one are whole. The one that is lost was the strike of place 4, which the depot's book now has:
     * a salvaged file is for where the file cannot be had again. */
    damaged_length = night_length - LOST_BYTES;
    memcpy(damaged, night, LOST_AT);
    memcpy(damaged + LOST_AT, night + LOST_AT + LOST_BYTES, damaged_length - LOST_AT);
    printf("the night file without %d bytes of its second entry is refused with %d\n", LOST_BYTES, (int)DOMBRELAT_REFUSAL(dombrelat_check_file(damaged, damaged_length)));
    fresh_length = salvage(damaged_length);
    done("the fresh file", dombrelat_check_file(fresh, fresh_length));
    enter_both(day_length, "the fresh file", fresh, fresh_length);
    return 0;
}
