/* N and u of 256 baselines from scratch: both build the sample, work out N and u and give one entry. Every entry is compared. */
#include "../common.h"

enum { ENTRIES = 48 * 48 + 48 };

int64_t bench_normals(size_t k);
int64_t twin_normals(size_t k);

static volatile int64_t sink;

static void library(int k) {
    sink += bench_normals((size_t)k % ENTRIES);
}

static void plain(int k) {
    sink += twin_normals((size_t)k % ENTRIES);
}

int main(void) {
    void (*const calls[])(int) = {library, plain};
    double best[2];
    for (size_t k = 0; k < ENTRIES; k++) {
        if (bench_normals(k) != twin_normals(k)) {
            return fail("normals: an entry differs");
        }
    }
    least(calls, 2, 300, 100, best);
    report("N and u of 256 baselines from scratch", best[0], best[1], 2);
    return 0;
}
