/* A plain C implementation of one edit on lent bytes, for the comparison of speed: the whole test behind 25, the record entered, N, u and the journal, in place.
 * It takes the layout of docs/BOOK.md as an array of int64_t. */
#include <stdint.h>
#include <stdlib.h>
#include <string.h>

enum { LAYOUT = 3, STATIONS = 2, PLACES = 130, NEXT = 3714, HELD = 3715, SLOTS = 3716, MATRIX = 4676, RIGHT = 6980, WORDS = 7028 };
enum { COORDINATE = 500000000, DIFFERENCE = 1000000000, ANTENNA_HEIGHT = 300000 }; /* the largest */
enum { HEIGHT_DIFFERENCE = 2, POSITION = 4 };                                       /* the first word of a record; 1 is a baseline */

static int within(int64_t v, int64_t limit) { return -limit <= v && v <= limit; }

/* The number of each unknown by station and component, -1 where it is held; the number of unknowns, or -1. */
static int number(const int64_t *w, int at[96]) {
    int n = 0, q;
    int64_t count = w[1];
    if (w[0] != LAYOUT || count < 1 || count > 32) {
        return -1;
    }
    for (q = 0; q < 96; q++) {
        const int64_t *s = w + STATIONS + 4 * (q / 3);
        if (q / 3 >= count) {
            if (s[0] || s[1] || s[2] || s[3]) {
                return -1;
            }
            at[q] = -1;
            continue;
        }
        if (s[0] < 1 || s[0] > 3 || !within(s[1 + q % 3], COORDINATE)) {
            return -1;
        }
        at[q] = s[0] == 2 || (s[0] == 3 && q % 3 == 2) ? n++ : -1;
    }
    return n >= 1 && n <= 48 ? n : -1;
}

/* The U difference from mark to mark; the words of the antenna heights are 0 but in a baseline. */
static int64_t reduced(const int64_t *r) { return r[5] + r[12] - r[13]; }

/* The station at the to end; a position has that end alone, its station being word 1. */
static int64_t to(const int64_t *r) { return r[r[0] == POSITION ? 1 : 2]; }

static int listed(const int64_t *w, int64_t station) { return station >= 1 && station <= w[1]; }

/* Whether the kind and the stations are by the rules, and what a position does not use is 0. */
static int stations_fit(const int64_t *w, const int64_t *r) {
    if (r[0] == POSITION) {
        return listed(w, r[1]) && !r[2] && !r[12] && !r[13];
    }
    return r[0] >= 1 && r[0] <= HEIGHT_DIFFERENCE && listed(w, r[1]) && listed(w, r[2]) && r[1] != r[2];
}

/* 0 where the 14 words are a record by the rules, or all 0; else a refusal. The misclosures go to l. */
static int rules(const int64_t *w, const int64_t *r, int64_t l[3]) {
    int64_t most = r[0] == POSITION ? COORDINATE : DIFFERENCE;
    int c, k;
    if (r[0] == 0) {
        for (k = 0; k < 14; k++) {
            if (r[k]) {
                return 3;
            }
        }
        return 0;
    }
    if (!stations_fit(w, r)) {
        return 3;
    }
    if (!within(r[3], most) || !within(r[4], most) || !within(r[5], most) || r[11] < 1 || r[11] > 10000) {
        return 4;
    }
    if (r[0] != HEIGHT_DIFFERENCE) {
        int64_t ee = r[6], en = r[7], eu = r[8], nn = r[9], nu = r[10], uu = r[11], det;
        if (r[12] < 0 || r[12] > ANTENNA_HEIGHT || r[13] < 0 || r[13] > ANTENNA_HEIGHT || !within(reduced(r), DIFFERENCE)) {
            return 4;
        }
        if (ee < 1 || ee > 10000 || nn < 1 || nn > 10000 || !within(en, 10000) || !within(eu, 10000) || !within(nu, 10000)) {
            return 4;
        }
        det = ee * (nn * uu - nu * nu) - en * (en * uu - nu * eu) + eu * (en * nu - nn * eu);
        if (ee * nn - en * en <= 0 || det <= 0 || nn * uu - nu * nu > 16 * det || ee * uu - eu * eu > 16 * det || ee * nn - en * en > 16 * det) {
            return 5;
        }
    } else if (r[3] || r[4] || r[6] || r[7] || r[8] || r[9] || r[10] || r[12] || r[13]) {
        return 3;
    }
    for (c = 0; c < 3; c++) {
        const int64_t *f = w + STATIONS + 4 * (r[1] - 1), *t = w + STATIONS + 4 * (to(r) - 1);
        int64_t provisional = t[1 + c] - (r[0] == POSITION ? 0 : f[1 + c]);
        l[c] = r[0] != HEIGHT_DIFFERENCE || c == 2 ? (c == 2 ? reduced(r) : r[3 + c]) - provisional : 0;
        if (!within(l[c], 100000)) {
            return 6;
        }
    }
    return 0;
}

/* Adds sign times a record's share to N and u. */
static void share(const int at[96], const int64_t *r, const int64_t l[3], int64_t sign, int64_t *matrix, int64_t *right) {
    static const int weight[9] = {6, 7, 8, 7, 9, 10, 8, 10, 11};
    int first = r[0] == POSITION ? 3 : 0, a, b, i, j;
    if (r[0] == 0) {
        return;
    }
    for (a = first; a < 6; a++) {
        int64_t s = sign * (a < 3 ? -1 : 1);
        i = at[3 * ((a < 3 ? r[1] : to(r)) - 1) + a % 3];
        if (i < 0) {
            continue;
        }
        for (b = first; b < 6; b++) {
            j = at[3 * ((b < 3 ? r[1] : to(r)) - 1) + b % 3];
            if (j >= 0) {
                matrix[48 * i + j] += s * (b < 3 ? -1 : 1) * r[weight[3 * (a % 3) + b % 3]];
            }
        }
        for (b = 0; b < 3; b++) {
            right[i] += s * r[weight[3 * (a % 3) + b]] * l[b];
        }
    }
}

static int sound(const int64_t *w, int at[96]) {
    int64_t fresh[48 * 48 + 48], l[3];
    unsigned char filled[256];
    int p, k, age;
    if (number(w, at) < 0 || w[NEXT] < 0 || w[NEXT] > 63 || w[HELD] < 0 || w[HELD] > 64) {
        return 0;
    }
    memset(fresh, 0, sizeof fresh);
    for (p = 0; p < 256; p++) {
        const int64_t *r = w + PLACES + 14 * p;
        if (rules(w, r, l)) {
            return 0;
        }
        filled[p] = r[0] != 0;
        share(at, r, l, 1, fresh, fresh + 48 * 48);
    }
    for (age = 0; age < 64; age++) {
        const int64_t *u = w + SLOTS + 15 * ((w[NEXT] + 63 - age) % 64);
        if (age >= w[HELD]) {
            for (k = 0; k < 15; k++) {
                if (u[k]) {
                    return 0;
                }
            }
            continue;
        }
        if (u[0] < 0 || u[0] > 255 || rules(w, u + 1, l) || (!filled[u[0]] && u[1] == 0)) {
            return 0;
        }
        filled[u[0]] = u[1] != 0;
    }
    return memcmp(fresh, w + MATRIX, sizeof fresh) == 0;
}

/* Enters the record of 14 words. */
int64_t twin_enter(uint8_t *bytes, size_t n, int64_t place, const int64_t r[14]) {
    int64_t *w = (int64_t *)bytes, *old, *slot, l[3], before[3];
    int at[96], no;
    if (n < 8 * WORDS || !sound(w, at)) {
        return 25;
    }
    if (place < 1 || place > 256) {
        return 2;
    }
    no = rules(w, r, l);
    if (no) {
        return no;
    }
    old = w + PLACES + 14 * (place - 1);
    rules(w, old, before);
    share(at, old, before, -1, w + MATRIX, w + RIGHT);
    share(at, r, l, 1, w + MATRIX, w + RIGHT);
    slot = w + SLOTS + 15 * w[NEXT];
    slot[0] = place - 1;
    memcpy(slot + 1, old, 14 * sizeof *old);
    memcpy(old, r, 14 * sizeof *r);
    w[NEXT] = (w[NEXT] + 1) % 64;
    w[HELD] = w[HELD] < 64 ? w[HELD] + 1 : 64;
    return 0;
}
