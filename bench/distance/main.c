/* A check distance on a full book beside dombrelat_check with the same pair, which it contains: the sheet's coordinates of two stations and the comparison are what it adds. */
#include "../full.h"

static int64_t x[N], m[N * N], refused;

static void distance(int k) {
    (void)k;
    refused |= dombrelat_check_distance((uint8_t *)book, sizeof book, (uint8_t *)x, sizeof x, (uint8_t *)m, sizeof m, 1, 32, 43843, 0, 0, 100);
}

static void check(int k) {
    (void)k;
    refused |= dombrelat_check((uint8_t *)book, sizeof book, (uint8_t *)x, sizeof x, (uint8_t *)m, sizeof m);
}

int main(void) {
    void (*const calls[])(int) = {distance, check};
    double best[2];
    if (fill(1) || dombrelat_propose((uint8_t *)book, sizeof book, (uint8_t *)x, sizeof x, (uint8_t *)m, sizeof m)) {
        return fail("distance: a record is refused, or there is no proposal");
    }
    least(calls, 2, 200, 40, best);
    if (refused) {
        return fail("distance: the pair is refused, or the distance does not agree");
    }
    report("a check distance on a full book beside check", best[0], best[1], 1.05);
    return 0;
}
