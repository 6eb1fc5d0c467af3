/* check_sheet at full size; the sheets are compared word for word. The library's call also decodes the bytes and tests 25; a check that is refused with 10 does just that, and
 * is taken off. */
#include "../full.h"
#include <math.h>
#include <string.h>

enum { ROOM = 2100 };

int64_t twin_check_sheet(const int64_t *book, const int64_t *x, size_t nx, const int64_t *m, size_t nm, int64_t *sheet, size_t room);

static int64_t x[N], m[N * N], ours[ROOM], theirs[ROOM], refused;

/* x and M from N and u of the book, in long double. */
static void solve(void) {
    static long double a[N][2 * N];
    for (int i = 0; i < N; i++) {
        for (int j = 0; j < N; j++) {
            a[i][j] = (long double)book[MATRIX + i * 48 + j], a[i][N + j] = i == j;
        }
    }
    for (int k = 0; k < N; k++) {
        long double p = a[k][k];
        for (int j = 0; j < 2 * N; j++) {
            a[k][j] /= p;
        }
        for (int i = 0; i < N; i++) {
            long double f = a[i][k];
            for (int j = 0; i != k && j < 2 * N; j++) {
                a[i][j] -= f * a[k][j];
            }
        }
    }
    for (int i = 0; i < N; i++) {
        long double s = 0;
        for (int j = 0; j < N; j++) {
            m[i * N + j] = llroundl(a[i][N + j] * 1073741824.0L);
            s += a[i][N + j] * (long double)book[RIGHT + j];
        }
        x[i] = llroundl(s);
    }
}

static void library(int k) {
    (void)k;
    refused |= dombrelat_check_sheet((uint8_t *)book, sizeof book, (uint8_t *)x, sizeof x, (uint8_t *)m, sizeof m, (uint8_t *)ours, sizeof ours);
}

static void decoding(int k) {
    (void)k;
    dombrelat_check_sheet((uint8_t *)book, sizeof book, (uint8_t *)x, 0, (uint8_t *)m, sizeof m, (uint8_t *)ours, sizeof ours);
}

static void plain(int k) {
    (void)k;
    refused |= twin_check_sheet(book, x, N, m, N * N, theirs, ROOM);
}

int main(void) {
    if (fill(1)) {
        return fail("check: a record is refused");
    }
    solve();
    memset(ours, 1, sizeof ours), memset(theirs, 1, sizeof theirs);
    library(0), plain(0);
    if (refused || memcmp(ours, theirs, sizeof ours)) {
        return fail("check: the two differ, or the pair is refused");
    }
    report_without("check_sheet at full size, beside the 25 test", library, decoding, plain, 1.3);
    return 0;
}
