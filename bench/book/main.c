/* One edit of a full book by value: a replay of 256 enters at empty places and then EDITS more rows, most of them enters over those records, less a replay of the 256 alone. Both
 * answer every row, and the answers are compared. It runs on a stack of 1 MiB: it needs between 512 and 576 KiB. */
#include "../common.h"
#include "twin.h"
#include <pthread.h>
#include <string.h>

enum { FILL = 256, EDITS = 4000, ROWS = FILL + EDITS };

uint64_t bench_replay(const int64_t *list, size_t words, const int64_t *calls, size_t call_words, int64_t *answers, size_t room);

static int64_t list[17 * 4], calls[ROWS * CALL_WORDS], answers[ROWS], twin_answers[ROWS];
static int failed;

/* one known station and 16 free ones; baselines between them and in each eighth row a position, every one of which is accepted; among the last rows are strikes, undos and such as
 * name no call */
static void sample(void) {
    for (int s = 0; s < 17; s++) {
        list[s * 4] = s == 0 ? 1 : 2;
    }
    for (int k = 0; k < ROWS; k++) {
        int f = k % 17, t = (f + 1 + k / 17 % 16) % 17, v = k % 1000, from_height = 150000 + k % 79, to_height = 150000 - k % 73;
        int64_t baseline[CALL_WORDS] = {ENTER, k % 256 + 1, 1, f + 1, t + 1, v, -v, 2 * v - from_height + to_height, 100, 10, -10, 100, 10, 100, from_height, to_height};
        int64_t position[CALL_WORDS] = {ENTER, k % 256 + 1, POSITION, f + 1, 0, v, -v, 2 * v, 100, 10, -10, 100, 10, 100, 0, 0};
        int64_t *row = k % 8 == 5 ? position : baseline;
        if (k >= ROWS - 100) {
            row[0] = STRIKE + k % 3;
        }
        memcpy(calls + k * CALL_WORDS, row, sizeof baseline);
    }
}

static void library(int rows) {
    bench_replay(list, 17 * 4, calls, (size_t)rows * CALL_WORDS, answers, (size_t)rows);
}

static void plain(int rows) {
    twin_replay(list, 17 * 4, calls, (size_t)rows, twin_answers);
}

static void library_all(int k) {
    (void)k;
    library(ROWS);
}

static void library_fill(int k) {
    (void)k;
    library(FILL);
}

static void plain_all(int k) {
    (void)k;
    plain(ROWS);
}

static void plain_fill(int k) {
    (void)k;
    plain(FILL);
}

static void *measure(void *unused) {
    void (*const replays[])(int) = {library_all, library_fill, plain_all, plain_fill};
    double best[4];
    library(ROWS);
    plain(ROWS);
    failed = memcmp(answers, twin_answers, sizeof answers) != 0;
    if (!failed) {
        least(replays, 4, 40, 1, best);
        report("one edit of a full book by value", (best[0] - best[1]) / EDITS, (best[2] - best[3]) / EDITS, 2);
    }
    return unused;
}

int main(void) {
    pthread_attr_t attributes;
    pthread_t thread;
    sample();
    pthread_attr_init(&attributes);
    pthread_attr_setstacksize(&attributes, 1024 * 1024);
    if (pthread_create(&thread, &attributes, measure, NULL)) {
        return fail("book: no thread");
    }
    pthread_join(thread, NULL);
    return failed ? fail("book: an answer differs") : 0;
}
