/* The plain C twin of the book: the same struct, the same edits, in place. It refuses what the table refuses of enters, strikes and undos, and
   keeps N and u by taking the old record's share off and putting the new one's on. */
#include "twin.h"
#include <string.h>

static int unknown_in(int64_t kind, int component)
{
    return kind == 2 || (kind == 3 && component == 2);
}

int twin_open(book *b, const int64_t *list, size_t words)
{
    memset(b, 0, sizeof *b);
    b->count = words / 4;
    for (size_t s = 0; s < b->count; s++)
        memcpy(&b->stations[s], list + 4 * s, sizeof b->stations[s]);
    return 0;
}

/* from mark to mark; a height difference has no antenna heights, nor has a position */
static int64_t reduced_up(const record *r)
{
    return r->up + r->from_height - r->to_height;
}

/* the station at the to end; a position has that end alone */
static int64_t to_of(const record *r)
{
    return r->kind == POSITION ? r->from : r->to;
}

typedef struct {
    int at[6];
    int64_t weight[3][3], misclosure[3];
} equation;

static equation equation_of(const book *b, const record *r)
{
    equation q;
    int number[COMPONENTS], unknowns = 0;
    int64_t coordinate[COMPONENTS];
    int f = (int)r->from - 1, t = (int)to_of(r) - 1, has_from = r->kind != POSITION;
    const int64_t reduced[3] = { r->east, r->north, reduced_up(r) };

    for (int c = 0; c < COMPONENTS; c++) {
        const station *s = &b->stations[c / 3];
        number[c] = unknown_in(s->kind, c % 3) ? unknowns++ : -1;
        coordinate[c] = c % 3 == 0 ? s->east : c % 3 == 1 ? s->north : s->up;
    }
    memset(q.weight, 0, sizeof q.weight);
    if (r->kind != HEIGHT_DIFFERENCE) {
        const int64_t w[3][3] = { { r->ee, r->en, r->eu }, { r->en, r->nn, r->nu }, { r->eu, r->nu, r->uu } };
        memcpy(q.weight, w, sizeof w);
    } else {
        q.weight[2][2] = r->uu;
    }
    for (int a = 0; a < 3; a++) {
        int64_t provisional = coordinate[t * 3 + a] - (has_from ? coordinate[f * 3 + a] : 0);
        q.misclosure[a] = r->kind != HEIGHT_DIFFERENCE || a == 2 ? reduced[a] - provisional : 0;
        q.at[a] = has_from ? number[f * 3 + a] : -1;
        q.at[a + 3] = number[t * 3 + a];
    }
    return q;
}

static void add_share(book *b, const record *r, int64_t sign)
{
    if (r->kind == 0)
        return;
    equation q = equation_of(b, r);
    for (int e = 0; e < 6; e++) {
        if (q.at[e] < 0)
            continue;
        int64_t c = sign * (e < 3 ? -1 : 1), v = 0;
        for (int g = 0; g < 6; g++)
            if (q.at[g] >= 0)
                b->matrix[q.at[e] * ROW + q.at[g]] += c * q.weight[e % 3][g % 3] * (g < 3 ? -1 : 1);
        for (int a = 0; a < 3; a++)
            v += q.weight[e % 3][a] * q.misclosure[a];
        b->right[q.at[e]] += c * v;
    }
}

static int within(int64_t v, int64_t limit)
{
    return -limit <= v && v <= limit;
}

static int listed(const book *b, int64_t station)
{
    return station >= 1 && station <= (int64_t)b->count;
}

static int record_no(const book *b, const record *r)
{
    int64_t most = r->kind == POSITION ? 500000000 : 1000000000;
    if (r->kind == 0 || !listed(b, r->from) || (r->kind != POSITION && (!listed(b, r->to) || r->from == r->to)))
        return 3;
    if (!within(r->up, most) || r->uu < 1 || r->uu > 10000)
        return 4;
    if (r->kind != HEIGHT_DIFFERENCE) {
        if (r->from_height < 0 || r->from_height > 300000 || r->to_height < 0 || r->to_height > 300000 || !within(reduced_up(r), most))
            return 4;
        if (!within(r->east, most) || !within(r->north, most) || r->ee < 1 || r->ee > 10000 || r->nn < 1 || r->nn > 10000
            || !within(r->en, 10000) || !within(r->eu, 10000) || !within(r->nu, 10000))
            return 4;
        int64_t ae = r->nn * r->uu - r->nu * r->nu, an = r->ee * r->uu - r->eu * r->eu, au = r->ee * r->nn - r->en * r->en;
        int64_t det = r->ee * ae - r->en * (r->en * r->uu - r->nu * r->eu) + r->eu * (r->en * r->nu - r->nn * r->eu);
        if (au <= 0 || det <= 0 || ae > 16 * det || an > 16 * det || au > 16 * det)
            return 5;
    }
    equation q = equation_of(b, r);
    for (int a = 0; a < 3; a++)
        if (!within(q.misclosure[a], 100000))
            return 6;
    return 0;
}

static void put(book *b, size_t place, const record *r)
{
    add_share(b, &b->places[place], -1);
    add_share(b, r, 1);
    b->places[place] = *r;
}

int64_t twin_call(book *b, int64_t call, int64_t place, record r)
{
    if (call == UNDO) {
        if (b->held == 0)
            return 8;
        size_t slot = (b->next + 63) % 64;
        reversal last = b->entries[slot];
        memset(&b->entries[slot], 0, sizeof b->entries[slot]);
        b->next = slot;
        b->held--;
        put(b, last.place, &last.prior);
        return 0;
    }
    if (call != ENTER && call != STRIKE)
        return -1;
    if (place < 1 || place > 256)
        return 2;
    int n = call == ENTER ? record_no(b, &r) : b->places[place - 1].kind == 0 ? 7 : 0;
    if (n)
        return n;
    if (call == STRIKE)
        memset(&r, 0, sizeof r);
    b->entries[b->next] = (reversal) { (size_t)place - 1, b->places[place - 1] };
    b->next = (b->next + 1) % 64;
    b->held += b->held < 64;
    put(b, (size_t)place - 1, &r);
    return 0;
}

record twin_record(const int64_t *row)
{
    record r;
    memcpy(&r, row + 2, sizeof r);
    return r;
}

/* the book is passed and given back by value, as the measured calls have it */
typedef struct {
    int64_t refusal;
    book after;
} edited;

__attribute__((noinline)) static edited call_by_value(book b, int64_t call, int64_t place, record r)
{
    edited e;
    e.refusal = twin_call(&b, call, place, r);
    e.after = b;
    return e;
}

void twin_replay(const int64_t *list, size_t words, const int64_t *calls, size_t rows, int64_t *answers)
{
    static book b;
    static edited e;
    twin_open(&b, list, words);
    for (size_t k = 0; k < rows; k++) {
        e = call_by_value(b, calls[k * CALL_WORDS], calls[k * CALL_WORDS + 1], twin_record(calls + k * CALL_WORDS));
        answers[k] = e.refusal;
        b = e.after;
    }
}
