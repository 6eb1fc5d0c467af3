/* The stack that a call takes at most, on a full book: 32 stations, 48 unknowns, 256 records, each eighth a position, a journal of 64. The calls on files come after: files of 3 and of
 * 10,000 entries are entered, read and asked, the book that they filled is written, and they are damaged and salvaged. Each call runs on a painted stack of its own, and what is no longer
 * painted was used. Prints the largest, in bytes; ends in 1 where it is more than the header says, more than the budget of 150,000 bytes, where a call is refused, or where one takes more
 * on the longer file. */
#define _GNU_SOURCE
#include "dombrelat.h"
#include "entries.h"

#include <pthread.h>
#include <stdio.h>
#include <stdlib.h>
#include <string.h>

#define SIZE (4u << 20)
#define PAINT 0xA5
#define BUDGET 150000u
#define CALLS 18
#define FEW 3
#define MANY 10000
#define SLACK 64u /* a frame may begin at another remainder */
#define DAMAGED_EACH 7 /* each seventh entry is damaged */

static uint8_t book[DOMBRELAT_BOOK_BYTES], carried[DOMBRELAT_BOOK_BYTES];
static uint8_t file[MANY * ENTRY_BYTES], day[MANY * ENTRY_BYTES], written[DOMBRELAT_PLACES * ENTRY_BYTES];
static uint8_t fresh[MANY * ENTRY_BYTES], skipped[DOMBRELAT_SALVAGE_LIST_BYTES(MANY * ENTRY_BYTES)], kept[DOMBRELAT_SALVAGE_LIST_BYTES(MANY * ENTRY_BYTES)];
static int64_t found[2], answers[MANY], counts[2];
static size_t length;
static int64_t stations[DOMBRELAT_STATIONS][4], x[DOMBRELAT_UNKNOWNS], m[DOMBRELAT_UNKNOWNS * DOMBRELAT_UNKNOWNS];
static int64_t sheet[DOMBRELAT_SHEET_BYTES / 8];
static int which;
static int64_t answer;

static int64_t baseline(int place, int up) {
    int from = 1 + place % 32, to = 1 + (place * 7 + 3) % 32;
    to = to == from ? 1 + from % 32 : to;
    return dombrelat_enter_baseline(book, sizeof book, place, from, to, 10 * (to - from), 10 * (from - to), to - from + up, 100, 3, -2, 120, 1, 90, 155000, 155000);
}

static int64_t position(int place, int up) {
    int station = 1 + place % 32, k = station - 1;
    return dombrelat_enter_position(book, sizeof book, place, station, 10 * k, -10 * k, k + up, 100, 3, -2, 120, 1, 90);
}

static void *run(void *unused) {
    (void)unused;
    switch (which) {
    case 0: answer = dombrelat_open((const uint8_t *)stations, sizeof stations, book, sizeof book); break;
    case 1: answer = baseline(256, 1); break;
    case 2: answer = baseline(3, 2); break;
    case 3: answer = position(3, 1); break;
    case 4: answer = dombrelat_enter_height(book, sizeof book, 5, 1, 2, 3, 100); break;
    case 5: answer = dombrelat_strike(book, sizeof book, 9); break;
    case 6: answer = dombrelat_enter_height(book, sizeof book, 9, 3, 4, 1, 100); break;
    case 7: answer = dombrelat_undo(book, sizeof book); break; /* of the enter at an empty place */
    case 8: answer = dombrelat_undo(book, sizeof book); break; /* of the strike */
    case 9: answer = dombrelat_undo(book, sizeof book); break; /* of the enter over a position */
    case 10: answer = dombrelat_propose(book, sizeof book, (uint8_t *)x, sizeof x, (uint8_t *)m, sizeof m); break;
    case 11: answer = dombrelat_check(book, sizeof book, (uint8_t *)x, sizeof x, (uint8_t *)m, sizeof m); break;
    case 12: answer = dombrelat_check_sheet(book, sizeof book, (uint8_t *)x, sizeof x, (uint8_t *)m, sizeof m, (uint8_t *)sheet, sizeof sheet); break;
    case 13: answer = dombrelat_unknowns(book, sizeof book); break;
    case 14: answer = dombrelat_sheet_bytes(book, sizeof book); break;
    case 15: answer = dombrelat_stations(book, sizeof book, (uint8_t *)stations, sizeof stations); break;
    case 16: answer = dombrelat_record(book, sizeof book, 256, (uint8_t *)sheet, sizeof sheet); break;
    case 17: answer = dombrelat_check_distance(book, sizeof book, (uint8_t *)x, sizeof x, (uint8_t *)m, sizeof m, 1, 32, 440, 0, 0, 100); break; /* about 439.5 apart */
    }
    return NULL;
}

/* The calls on files; those that read one take its first `length` bytes. */
static void write_one(void) { answer = dombrelat_write_file(carried, sizeof carried, written, sizeof written); }
static void check_one(void) { answer = dombrelat_check_file(file, length); }
static void ask_one(void) { answer = dombrelat_entry_in_force(file, length, day, length, 1, (uint8_t *)found, sizeof found); }
static void enter_one(void) { answer = dombrelat_enter_file(carried, sizeof carried, file, length, (uint8_t *)answers, sizeof answers); }
static void salvage_one(void) {
    answer = dombrelat_salvage(file, length, fresh, length, skipped, DOMBRELAT_SALVAGE_LIST_BYTES(length), kept, DOMBRELAT_SALVAGE_LIST_BYTES(length), (uint8_t *)counts, sizeof counts);
}
static void (*file_call)(void);

static void *run_file_call(void *unused) {
    file_call();
    return unused;
}

/* The bytes of stack that a call takes, which is printed with its name. A refused call ends the program. */
static size_t stack_of(const char *name, void *(*call)(void *)) {
    uint8_t *stack;
    size_t unused = 0;
    pthread_attr_t attr;
    pthread_t thread;
    if (posix_memalign((void **)&stack, 4096, SIZE)) {
        exit(1);
    }
    memset(stack, PAINT, SIZE);
    pthread_attr_init(&attr);
    pthread_attr_setstack(&attr, stack, SIZE);
    if (pthread_create(&thread, &attr, call, NULL) || pthread_join(thread, NULL)) {
        exit(1);
    }
    while (unused < SIZE && stack[unused] == PAINT) {
        unused++;
    }
    free(stack);
    fprintf(stderr, "%s: %zu bytes\n", name, SIZE - unused);
    if (DOMBRELAT_REFUSAL(answer)) {
        fprintf(stderr, "%s is refused with %lld\n", name, (long long)answer);
        exit(1);
    }
    return SIZE - unused;
}

static size_t larger(size_t a, size_t b) { return a > b ? a : b; }

/* The largest of the calls on a book. Once it is open, it is filled but for the last place. */
static size_t most_on_books(void) {
    static const char *const calls[CALLS] = {"open", "enter_baseline", "enter_baseline over a record", "enter_position over a record", "enter_height over a record", "strike",
                                             "enter_height", "undo", "undo", "undo", "propose", "check", "check_sheet", "unknowns", "sheet_bytes", "stations", "record",
                                             "check_distance"};
    size_t most = 0;
    int k;
    for (which = 0; which < CALLS; which++) {
        most = larger(most, stack_of(calls[which], run));
        for (k = 1; which == 0 && k < DOMBRELAT_PLACES; k++) {
            if (k % 8 == 5 ? position(k, k % 5) : baseline(k, k % 5)) {
                exit(1);
            }
        }
    }
    return most;
}

/* The larger of what a call takes on the files of FEW and of MANY entries; where it takes more on the longer one, the program ends. */
static size_t stack_on_files(const char *name, void (*call)(void)) {
    size_t few, many;
    file_call = call;
    length = FEW * ENTRY_BYTES;
    few = stack_of(name, run_file_call);
    length = sizeof file;
    many = stack_of(name, run_file_call);
    if (many > few + SLACK) {
        fprintf(stderr, "%s takes more on a longer file\n", name);
        exit(1);
    }
    return larger(few, many);
}

/* What salvage takes of files with an entry in DAMAGED_EACH that does not add up, the second one first. */
static size_t most_of_salvage(void) {
    size_t most;
    int k;
    for (k = 1; k < MANY; k += DAMAGED_EACH) {
        file[k * ENTRY_BYTES]++;
    }
    most = stack_on_files("salvage", salvage_one);
    if (counts[0] != (MANY - 2) / DAMAGED_EACH + 1 || counts[0] + counts[1] != MANY) {
        fprintf(stderr, "salvage skipped %lld runs and kept %lld entries\n", (long long)counts[0], (long long)counts[1]);
        exit(1);
    }
    return most;
}

/* The largest of the calls on files. A book is filled by the longer one, whose records are all accepted, and written. */
static size_t most_on_files(void) {
    size_t most;
    int k;
    put_file(day, MANY);
    put_file(file, MANY);
    if (dombrelat_open((const uint8_t *)stations, sizeof stations, carried, sizeof carried)) {
        exit(1);
    }
    /* once beforehand, so that the book has records when either of the two is measured */
    file_call = enter_one;
    length = FEW * ENTRY_BYTES;
    run_file_call(NULL);
    most = stack_on_files("enter_file", enter_one);
    for (k = 0; k < MANY; k++) {
        if (answers[k] && answers[k] != DOMBRELAT_PLACE_EMPTY) {
            fprintf(stderr, "entry %d is refused with %lld\n", k, (long long)answers[k]);
            exit(1);
        }
    }
    most = larger(most, stack_on_files("check_file", check_one));
    most = larger(most, stack_on_files("entry_in_force", ask_one));
    file_call = write_one;
    most = larger(most, stack_of("write_file", run_file_call));
    return larger(most, most_of_salvage());
}

int main(void) {
    size_t most;
    int k;
    for (k = 0; k < DOMBRELAT_STATIONS; k++) {
        stations[k][0] = k < 14 ? DOMBRELAT_FREE : k < 20 ? DOMBRELAT_HEIGHT : DOMBRELAT_KNOWN;
        stations[k][1] = 10 * k, stations[k][2] = -10 * k, stations[k][3] = k;
    }
    most = most_on_books();
    most = larger(most, most_on_files());
    printf("%zu\n", most);
    return most > DOMBRELAT_STACK_BYTES || most > BUDGET;
}
