/* A plain C check of a pair (x, M) and its sheet, for the comparison of speed: tests 1 to 7 and the sheet's words, on a book's bytes as an array of int64_t (the layout of
 * docs/BOOK.md). It trusts the book. 0, the refusal's number, or 11 + 256 times the unknown. */
#include "../untied.h"
#include <stdlib.h>

enum { MATRIX = 4676, RIGHT = 6980 };

static const int64_t limits[30][2] = {
    {1, 5024}, {51, 7378}, {216, 9348}, {484, 11143}, {831, 12833}, {1237, 14449}, {1690, 16013}, {2180, 17535}, {2700, 19023}, {3247, 20483},
    {3816, 21920}, {4404, 23337}, {5009, 24736}, {5629, 26119}, {6262, 27488}, {6908, 28845}, {7564, 30191}, {8231, 31526}, {8907, 32852}, {9591, 34170},
    {10283, 35479}, {10982, 36781}, {11689, 38076}, {12401, 39364}, {13120, 40646}, {13844, 41923}, {14573, 43195}, {15308, 44461}, {16047, 45722}, {16791, 46979}};

static int64_t size(int64_t v) { return v < 0 ? -v : v; }

static int near_inverse(const int64_t *book, const int64_t *m, int n) {
    int i, j, k;
    for (i = 0; i < n; i++) {
        int64_t sum = 0;
        for (j = 0; j < n; j++) {
            int64_t d = i == j ? 1073741824 : 0;
            for (k = 0; k < n; k++) {
                d -= m[i * n + k] * book[MATRIX + k * 48 + j];
            }
            sum += size(d);
            if (sum > 67108864) {
                return 0;
            }
        }
    }
    return 1;
}

static int64_t entry(const int64_t *m, int n, int a, int b) { return a < 0 || b < 0 ? 0 : m[a * n + b]; }

static int64_t verdict(int64_t v, int64_t q) { return q < 16384 ? 2 : v * v * 16777216 > 60025 * q; }

int64_t twin_check_sheet(const int64_t *book, const int64_t *x, size_t nx, const int64_t *m, size_t nm, int64_t *sheet, size_t room) {
    int at[96], n = unknowns_in(book, at), q, p, c, i, j, records = 0, count = (int)book[1];
    size_t need = 5 + 7 * (size_t)count;
    int64_t r[48], t = 0, d = 0;
    for (p = 0; p < 256; p++) {
        int64_t kind = record(book, p)[0];
        need += kind == 0 ? 0 : kind == HEIGHT_DIFFERENCE ? 3 : 7;
        records += kind != 0;
    }
    if (nx != (size_t)n || nm != (size_t)(n * n) || room < need) {
        return 10;
    }
    q = untied(book, at);
    if (q < 96) {
        return 11 + 256 * (int64_t)(at[q] + 1);
    }
    for (i = 0; i < n; i++) {
        if (x[i] < -100000 || x[i] > 100000) {
            return 12;
        }
    }
    for (i = 0; i < n * n; i++) {
        if (m[i] < -17179869184 || m[i] > 17179869184) {
            return 13;
        }
    }
    if (!near_inverse(book, m, n)) {
        return 14;
    }
    for (i = 0; i < n; i++) {
        r[i] = book[RIGHT + i];
        for (j = 0; j < n; j++) {
            r[i] -= book[MATRIX + i * 48 + j] * x[j];
        }
        if (size(r[i]) > 8388608) {
            return 15;
        }
    }
    for (i = 0; i < n; i++) {
        int64_t s = 0;
        for (j = 0; j < n; j++) {
            s += m[i * n + j] * r[j];
        }
        if (size(s) > 1006632960) {
            return 16;
        }
    }
    *sheet++ = records, *sheet++ = n;
    for (i = 0; i < count; i++) {
        *sheet++ = i + 1;
        for (c = 0; c < 3; c++) {
            sheet[c] = book[STATIONS + 4 * i + 1 + c] + (at[3 * i + c] < 0 ? 0 : x[at[3 * i + c]]);
            sheet[3 + c] = entry(m, n, at[3 * i + c], at[3 * i + c]);
        }
        sheet += 6;
    }
    for (p = 0; p < 256; p++) {
        const int64_t *w = record(book, p);
        int64_t v[3] = {0, 0, 0}, P[3][3] = {{w[6], w[7], w[8]}, {w[7], w[9], w[10]}, {w[8], w[10], w[11]}}, verdicts[3];
        int64_t det = w[6] * (w[9] * w[11] - w[10] * w[10]) - w[7] * (w[7] * w[11] - w[10] * w[8]) + w[8] * (w[7] * w[10] - w[9] * w[8]);
        int64_t adj[3] = {w[9] * w[11] - w[10] * w[10], w[6] * w[11] - w[8] * w[8], w[6] * w[9] - w[7] * w[7]};
        int in_adjustment = 0, first = w[0] == HEIGHT_DIFFERENCE ? 2 : 0, from = (int)w[1], to = (int)w[2];
        if (!w[0]) {
            continue;
        }
        if (w[0] == POSITION) {
            from = 0, to = (int)w[1]; /* it has the to end alone, its station */
        }
        for (c = first; c < 3; c++) {
            int e = at[3 * (to - 1) + c], f = from ? at[3 * (from - 1) + c] : -1;
            int64_t reduced = c == 2 ? w[5] + w[12] - w[13] : w[3 + c]; /* from mark to mark: the last two are the antenna heights */
            int64_t l = reduced - (book[STATIONS + 4 * (to - 1) + 1 + c] - (from ? book[STATIONS + 4 * (from - 1) + 1 + c] : 0));
            int64_t variance = w[0] == HEIGHT_DIFFERENCE ? 1073741824 / w[11] : 1073741824 * adj[c] / det;
            v[c] = l - ((e < 0 ? 0 : x[e]) - (f < 0 ? 0 : x[f]));
            variance -= entry(m, n, e, e) + entry(m, n, f, f) - entry(m, n, e, f) - entry(m, n, f, e);
            verdicts[c] = verdict(v[c], variance);
            in_adjustment |= e >= 0 || f >= 0;
        }
        *sheet++ = p + 1;
        for (c = first; c < 3; c++) {
            *sheet++ = v[c];
        }
        for (c = first; c < 3; c++) {
            *sheet++ = verdicts[c];
        }
        if (!in_adjustment) {
            continue;
        }
        d += 3 - first;
        for (i = 0; i < 3; i++) {
            for (j = 0; j < 3; j++) {
                t += v[i] * P[i][j] * v[j];
            }
        }
    }
    d -= n;
    *sheet++ = t, *sheet++ = d;
    *sheet = d < 1 || d > 30 ? 5 : t < 1000 * limits[d - 1][0] ? 3 : t > 1000 * limits[d - 1][1] ? 4 : 0;
    return 0;
}
