/* Salvaging a damaged file of 10,000 entries, dombrelat_salvage against twin.c. Both write alike first: on the damaged file, a whole one, noise, words of 1, on other lengths, and with each
 * room a byte short. `salvage speed` prints the megabytes a second that the library goes over instead, also of the other three and of a damaged file that is eight times as long, and ends
 * in 1 where on the damaged file they are below the budget. */
#include "../../include/dombrelat.h"
#include "../../tests/host/entries.h"
#include "../common.h"
#include "twin.h"

enum { ENTRIES = 10000, TIMES_LONGER = 8, MOST_ENTRIES = ENTRIES * TIMES_LONGER, LEAST_SPEED = 100 /* megabytes a second */ };
enum { MOST_BYTES = MOST_ENTRIES * (ENTRY_BYTES + 8), FRESH = MOST_BYTES, LIST = DOMBRELAT_SALVAGE_LIST_BYTES(MOST_BYTES), COUNTS = DOMBRELAT_SALVAGE_COUNTS_BYTES, PAIR_BYTES = 16 };

static uint8_t whole[MOST_ENTRIES * ENTRY_BYTES], damaged[MOST_BYTES], noise[ENTRIES * ENTRY_BYTES], ones[ENTRIES * ENTRY_BYTES];
static uint8_t written[2][FRESH + 2 * LIST + COUNTS]; /* by the library and by the twin: the fresh file, the two lists, the counts, each with room for the longest */
static uint64_t state = 88172645463325252u;
static const uint8_t *file;
static size_t length;
static int64_t refused;

static uint8_t any_byte(void) {
    state ^= state << 13, state ^= state >> 7, state ^= state << 17;
    return (uint8_t)(state >> 32);
}

static size_t put_noise(uint8_t *to, size_t bytes) {
    for (size_t k = 0; k < bytes; k++) {
        to[k] = any_byte();
    }
    return bytes;
}

/* What a bad transfer leaves of the whole file of so many entries: in each 500, ten with a byte that is another, one with 40 bytes lost, 1,000 bytes of noise, and 1 to 7 bytes that came in,
 * followed after ten entries by those that are missing to 8. Gives its length. */
static size_t put_damaged(int count) {
    size_t at = 0;
    for (int k = 0; k < count; k++) {
        int in_500 = k % 500, shift = 1 + k / 500 % 7;
        size_t lost = in_500 == 33 ? 40 : 0;
        at += in_500 == 120 ? put_noise(damaged + at, 1000) : 0;
        at += in_500 == 300 ? put_noise(damaged + at, (size_t)shift) : 0;
        at += in_500 == 310 ? put_noise(damaged + at, (size_t)(8 - shift)) : 0;
        memcpy(damaged + at, whole + (size_t)k * ENTRY_BYTES, ENTRY_BYTES - lost);
        damaged[at + 60] ^= in_500 % 50 == 7;
        at += ENTRY_BYTES - lost;
    }
    return at;
}

enum { LIBRARY, TWIN };

/* All the room that there is for one of the two. */
static struct salvage slices(int writer) {
    uint8_t *at = written[writer];
    struct salvage s = {file, length, at, FRESH, at + FRESH, LIST, at + FRESH + LIST, LIST, at + FRESH + 2 * LIST, COUNTS};
    return s;
}

static int64_t by_library(const struct salvage *s) {
    return dombrelat_salvage(s->damaged, s->damaged_bytes, s->fresh, s->fresh_bytes, s->skipped, s->skipped_bytes, s->kept, s->kept_bytes, s->counts, s->counts_bytes);
}

/* Whether one of the two gives another answer than this one, or they write differently. */
static int differ_by(const struct salvage s[2], int64_t answer) {
    memset(written, 0x5a, sizeof written);
    return by_library(&s[LIBRARY]) != answer || twin_salvage(&s[TWIN]) != answer || memcmp(written[LIBRARY], written[TWIN], sizeof written[TWIN]) != 0;
}

/* Lends both so many bytes for the fresh file, the two lists and the counts. */
static void lend(struct salvage s[2], const size_t rooms[4]) {
    for (int writer = LIBRARY; writer <= TWIN; writer++) {
        s[writer].fresh_bytes = rooms[0], s[writer].skipped_bytes = rooms[1], s[writer].kept_bytes = rooms[2], s[writer].counts_bytes = rooms[3];
    }
}

/* The same in rooms of just the bytes for so many runs and entries, and with a byte less for one of the four, which is refused. */
static int differ_in_room(int64_t runs, int64_t entries, int room) {
    struct salvage s[2] = {slices(LIBRARY), slices(TWIN)};
    size_t rooms[4] = {(size_t)entries * ENTRY_BYTES, (size_t)runs * PAIR_BYTES, (size_t)entries * PAIR_BYTES, PAIR_BYTES};
    lend(s, rooms);
    if (differ_by(s, 0)) {
        return 1;
    }
    if (rooms[room] == 0) {
        return 0; /* none is asked */
    }
    rooms[room]--;
    lend(s, rooms);
    return differ_by(s, DOMBRELAT_BAD_LENGTHS);
}

/* Whether the two differ on the file, in room that suffices, in just the room, or in less. */
static int differ(const uint8_t *bytes, size_t count) {
    struct salvage s[2];
    int64_t found[2];
    int differs;
    file = bytes, length = count;
    s[LIBRARY] = slices(LIBRARY), s[TWIN] = slices(TWIN);
    differs = differ_by(s, 0);
    memcpy(found, s[LIBRARY].counts, sizeof found);
    for (int room = 0; room < 4; room++) {
        differs = differs || differ_in_room(found[0], found[1], room);
    }
    return differs;
}

static int all_alike(size_t damaged_bytes) {
    static const size_t lengths[] = {0, 1, 7, 8, 127, 128, 129, 135, 136, 256, 12345};
    int differs = differ(damaged, damaged_bytes) || differ(whole, ENTRIES * ENTRY_BYTES) || differ(noise, sizeof noise) || differ(ones, sizeof ones);
    for (size_t k = 0; k < sizeof lengths / sizeof *lengths; k++) {
        differs = differs || differ(damaged, lengths[k]) || differ(damaged + 8, lengths[k]);
    }
    return !differs;
}

static void library(int k) {
    struct salvage s = slices(LIBRARY);
    (void)k;
    refused |= by_library(&s);
}

static void plain(int k) {
    struct salvage s = slices(TWIN);
    (void)k;
    refused |= twin_salvage(&s);
}

/* Megabytes a second that the library goes over: bytes a microsecond. */
static double speed_on(const uint8_t *bytes, size_t count) {
    void (*const calls[])(int) = {library};
    double best;
    file = bytes, length = count;
    least(calls, 1, 50, 1, &best);
    return (double)count / best;
}

static int speeds(size_t damaged_bytes) {
    double speed = speed_on(damaged, damaged_bytes);
    printf("a damaged file of %d entries is salvaged at %.0f MB a second (budget %d); a whole one at %.0f, noise at %.0f, words of 1 at %.0f\n", ENTRIES, speed, LEAST_SPEED,
           speed_on(whole, ENTRIES * ENTRY_BYTES), speed_on(noise, sizeof noise), speed_on(ones, sizeof ones));
    damaged_bytes = put_damaged(MOST_ENTRIES);
    printf("one %d times as long at %.0f MB a second\n", TIMES_LONGER, speed_on(damaged, damaged_bytes));
    return speed < LEAST_SPEED || refused;
}

int main(int argc, char **argv) {
    void (*const calls[])(int) = {library, plain};
    double best[2];
    size_t damaged_bytes;
    put_file(whole, MOST_ENTRIES);
    put_noise(noise, sizeof noise);
    for (size_t k = 0; k < sizeof ones; k += 8) {
        ones[k] = 1;
    }
    damaged_bytes = put_damaged(ENTRIES);
    if (argc == 2 && strcmp(argv[1], "speed") == 0) {
        return speeds(damaged_bytes);
    }
    if (!all_alike(damaged_bytes)) {
        return fail("salvage: the two write differently, or a file is refused");
    }
    file = damaged, length = damaged_bytes;
    least(calls, 2, 200, 1, best);
    report("salvaging a damaged file of 10,000 entries", best[0], best[1], 1.5);
    return refused != 0;
}
