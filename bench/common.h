/* What the benchmarks share: processor time, the least of many rounds taken in turn, the line of a result. */
#include <stddef.h>
#include <stdint.h>
#include <stdio.h>
#include <time.h>

/* Processor time of this thread in microseconds, so that other work on the machine disturbs little. */
static inline double now(void) {
    struct timespec t;
    clock_gettime(CLOCK_THREAD_CPUTIME_ID, &t);
    return (double)t.tv_sec * 1e6 + (double)t.tv_nsec / 1e3;
}

/* The least time of one call of each of `count` functions over some rounds of `times` calls. They take turns, so that a machine that is slow for a while is slow for all
 * of them. */
static inline void least(void (*const calls[])(int), int count, int rounds, int times, double best[]) {
    for (int which = 0; which < count; which++) {
        best[which] = 1e18;
    }
    for (int turn = 0; turn < rounds * count; turn++) {
        int which = turn % count;
        double from = now(), taken;
        for (int k = 0; k < times; k++) {
            calls[which](k);
        }
        taken = (now() - from) / times;
        best[which] = taken < best[which] ? taken : best[which];
    }
}

/* A line of the table that bench/run prints: what was measured, the library's and the plain C's time (or another call's), and how many times that it may take. */
static inline void report(const char *what, double library, double plain, double budget) {
    printf("%s\t%.1f\t%.1f\t%.3f\t%.2f\n", what, library, plain, library / plain, budget);
}

/* Times a library call less the time of `part`, a call that does only what the plain C leaves out, and prints the line. */
static inline void report_without(const char *what, void (*library)(int), void (*part)(int), void (*plain)(int), double budget) {
    void (*const calls[])(int) = {library, part, plain};
    double best[3];
    least(calls, 3, 200, 40, best);
    report(what, best[0] - best[1], best[2], budget);
}

static inline int fail(const char *why) {
    fprintf(stderr, "%s\n", why);
    return 1;
}
