/* The plain C twin of crates/bench_kernels: the same sample network, its N and u from scratch, and one of their entries. */
#include <stddef.h>
#include <stdint.h>
#include <string.h>

enum { STATIONS = 32, COMPONENTS = 96, PLACES = 256, ROW = 48 };

typedef struct {
    int kind; /* 0 known, 1 free, 2 height */
    int64_t east, north, up;
} station;

typedef struct {
    int kind; /* 0 empty, 1 baseline, 2 height difference, 4 position: station in from */
    int64_t from, to, east, north, up, ee, en, eu, nn, nu, uu, from_height, to_height;
} record;

static void sample(station stations[STATIONS], record places[PLACES])
{
    memset(stations, 0, STATIONS * sizeof stations[0]);
    for (int s = 1; s <= 16; s++)
        stations[s].kind = 1;
    for (int p = 0; p < PLACES; p++) {
        int f = p % 17, t = (f + 1 + p / 17) % 17;
        places[p] = (record) { 1, f + 1, t + 1, p, p, p, 100, 10, -10, 100, 10, 100, 0, 0 };
    }
}

static int unknown_in(int kind, int component)
{
    return kind == 1 || (kind == 2 && component == 2);
}

static int64_t coordinate_in(const station *s, int component)
{
    return component == 0 ? s->east : component == 1 ? s->north : s->up;
}

static void normals(const station stations[STATIONS], const record places[PLACES], int64_t matrix[ROW * ROW], int64_t right[ROW])
{
    int number[COMPONENTS], unknowns = 0;
    int64_t coordinate[COMPONENTS];

    for (int q = 0; q < COMPONENTS; q++) {
        number[q] = unknown_in(stations[q / 3].kind, q % 3) ? unknowns++ : -1;
        coordinate[q] = coordinate_in(&stations[q / 3], q % 3);
    }
    memset(matrix, 0, ROW * ROW * sizeof matrix[0]);
    memset(right, 0, ROW * sizeof right[0]);
    for (int p = 0; p < PLACES; p++) {
        const record *r = &places[p];
        if (r->kind == 0)
            continue;
        int has_from = r->kind != 4; /* a position has the to end alone, its station */
        int f = (int)r->from - 1, t = (int)(has_from ? r->to : r->from) - 1;
        int64_t weight[3][3] = { { r->ee, r->en, r->eu }, { r->en, r->nn, r->nu }, { r->eu, r->nu, r->uu } };
        int64_t reduced[3] = { r->east, r->north, r->up + r->from_height - r->to_height };
        int64_t misclosure[3], weighted[3];
        int at[6];

        if (r->kind == 2)
            for (int a = 0; a < 3; a++)
                for (int b = 0; b < 3; b++)
                    if (a != 2 || b != 2)
                        weight[a][b] = 0;
        for (int a = 0; a < 3; a++) {
            misclosure[a] = reduced[a] - (coordinate[t * 3 + a] - (has_from ? coordinate[f * 3 + a] : 0));
            at[a] = has_from ? number[f * 3 + a] : -1;
            at[a + 3] = number[t * 3 + a];
        }
        for (int a = 0; a < 3; a++)
            weighted[a] = weight[a][0] * misclosure[0] + weight[a][1] * misclosure[1] + weight[a][2] * misclosure[2];
        for (int e = 0; e < 6; e++) {
            if (at[e] < 0)
                continue;
            int64_t sign = e < 3 ? -1 : 1;
            for (int g = 0; g < 6; g++)
                if (at[g] >= 0)
                    matrix[at[e] * ROW + at[g]] += sign * weight[e % 3][g % 3] * (g < 3 ? -1 : 1);
            right[at[e]] += sign * weighted[e % 3];
        }
    }
}

int64_t twin_normals(size_t k)
{
    station stations[STATIONS];
    record places[PLACES];
    int64_t matrix[ROW * ROW], right[ROW];

    sample(stations, places);
    normals(stations, places, matrix, right);
    if (k < ROW * ROW)
        return matrix[k];
    return k < ROW * ROW + ROW ? right[k - ROW * ROW] : 0;
}
