/* Reading a file of 10,000 entries of each kind, dombrelat_check_file against twin.c. Both answer alike first on the whole file, on each of its words changed in some entries, with the sum
 * wrong and right, and on other lengths. `files speed` prints the megabytes a second that the library reads instead, and ends in 1 where they are below the budget. */
#include "../../include/dombrelat.h"
#include "../../tests/host/entries.h"
#include "../common.h"

enum { ENTRIES = 10000, LEAST_SPEED = 500 /* megabytes a second */ };

int twin_reads(const uint8_t *file, size_t bytes);

static _Alignas(8) uint8_t file[ENTRIES * ENTRY_BYTES];
static int64_t refused;

static int differs(size_t bytes) { return (dombrelat_check_file(file, bytes) == 0) != (twin_reads(file, bytes) == 1); }

/* Each word of entry k one higher, with the sum as it was and with the sum of the words. */
static int differs_damaged(int k) {
    uint8_t *at = file + ENTRY_BYTES * k;
    int64_t word[ENTRY_WORDS], kept[ENTRY_WORDS];
    int differ = 0, w;
    memcpy(kept, at, sizeof kept);
    for (w = 0; w < ENTRY_WORDS; w++) {
        memcpy(word, kept, sizeof word);
        word[w]++;
        memcpy(at, word, sizeof word);
        differ |= differs(sizeof file);
        word[15] = sum_of(word);
        memcpy(at, word, sizeof word);
        differ |= differs(sizeof file);
    }
    memcpy(at, kept, sizeof kept);
    return differ;
}

static int all_alike(void) {
    static const int entries[] = {0, 1, 2, 5000, 5001, 5002, ENTRIES - 3, ENTRIES - 2, ENTRIES - 1};
    static const size_t lengths[] = {0, 1, 127, 128, 129, 256, sizeof file - 128, sizeof file - 1};
    int differ = dombrelat_check_file(file, sizeof file) != 0 || differs(sizeof file);
    for (size_t k = 0; k < sizeof entries / sizeof *entries; k++) {
        differ |= differs_damaged(entries[k]);
    }
    for (size_t k = 0; k < sizeof lengths / sizeof *lengths; k++) {
        differ |= differs(lengths[k]);
    }
    return !differ;
}

static void library(int k) {
    (void)k;
    refused |= dombrelat_check_file(file, sizeof file);
}

static void plain(int k) {
    (void)k;
    refused |= !twin_reads(file, sizeof file);
}

int main(int argc, char **argv) {
    void (*const calls[])(int) = {library, plain};
    double best[2], speed;
    put_file(file, ENTRIES);
    if (!all_alike()) {
        return fail("files: the two read differently, or the file is refused");
    }
    least(calls, 2, 100, 4, best);
    if (refused) {
        return fail("files: the file is refused");
    }
    speed = (double)sizeof file / best[0]; /* bytes a microsecond are megabytes a second */
    if (argc == 2 && strcmp(argv[1], "speed") == 0) {
        printf("a file of %d entries is read at %.0f MB a second (budget %d)\n", ENTRIES, speed, LEAST_SPEED);
        return speed < LEAST_SPEED;
    }
    report("reading a file of 10,000 entries", best[0], best[1], 1.5);
    return 0;
}
