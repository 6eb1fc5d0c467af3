/* A proposal at 48 unknowns: the library against a plain C LDLT with inverse and solution in f64. The library's call also decodes the bytes and tests 25, which a call with a
 * length that does not fit does alone; that is taken off. It also passes the pair through the whole check, which the plain C does not. */
#include "../full.h"
#include <math.h>

static int64_t x[N], m[N * N], y[N], w[N * N];

/* N = L D LT, the inverse by columns, x = inverse times u; both rounded. */
static void plain(int round) {
    static double l[N][N], d[N], inverse[N][N];
    int i, j, k;
    (void)round;
    for (j = 0; j < N; j++) {
        double s = (double)book[MATRIX + j * 48 + j];
        for (k = 0; k < j; k++) {
            s -= l[j][k] * l[j][k] * d[k];
        }
        d[j] = s;
        for (i = j + 1; i < N; i++) {
            s = (double)book[MATRIX + i * 48 + j];
            for (k = 0; k < j; k++) {
                s -= l[i][k] * l[j][k] * d[k];
            }
            l[i][j] = s / d[j];
        }
    }
    for (j = 0; j < N; j++) {
        double c[N];
        for (i = 0; i < N; i++) {
            double s = i == j;
            for (k = j; k < i; k++) {
                s -= l[i][k] * c[k];
            }
            c[i] = i < j ? 0 : s;
        }
        for (i = N - 1; i >= 0; i--) {
            double s = c[i] / d[i];
            for (k = i + 1; k < N; k++) {
                s -= l[k][i] * c[k];
            }
            c[i] = s;
        }
        for (i = 0; i < N; i++) {
            inverse[i][j] = c[i];
        }
    }
    for (i = 0; i < N; i++) {
        double s = 0;
        for (j = 0; j < N; j++) {
            w[i * N + j] = llrint(inverse[i][j] * 1073741824.0);
            s += inverse[i][j] * (double)book[RIGHT + j];
        }
        y[i] = llrint(s);
    }
}

static void library(int k) {
    (void)k;
    dombrelat_propose((uint8_t *)book, sizeof book, (uint8_t *)x, sizeof x, (uint8_t *)m, sizeof m);
}

static void decoding(int k) {
    (void)k;
    dombrelat_propose((uint8_t *)book, sizeof book, (uint8_t *)x, 0, (uint8_t *)m, sizeof m);
}

int main(void) {
    uint8_t *bytes = (uint8_t *)book;
    if (fill(0)) {
        return fail("propose: a record is refused");
    }
    plain(0);
    if (dombrelat_propose(bytes, sizeof book, (uint8_t *)x, sizeof x, (uint8_t *)m, sizeof m) ||
        dombrelat_check(bytes, sizeof book, (uint8_t *)y, sizeof y, (uint8_t *)w, sizeof w)) {
        return fail("propose: no proposal, or the plain C's pair is refused");
    }
    report_without("propose at 48 unknowns, beside the 25 test", library, decoding, plain, 2);
    return 0;
}
