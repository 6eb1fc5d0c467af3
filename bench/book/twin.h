/* The book as a plain C struct. */
#include <stddef.h>
#include <stdint.h>

enum { STATIONS = 32, COMPONENTS = 96, PLACES = 256, ROW = 48 };
enum { ENTER = 1, STRIKE, UNDO };             /* the first word of a row of calls */
enum { CALL_WORDS = 16 };                     /* of a row: the call, the place, the record's 14 words */
enum { HEIGHT_DIFFERENCE = 2, POSITION = 4 }; /* kinds of record; 0 is an empty place, 1 a baseline */

typedef struct {
    int64_t kind, east, north, up; /* 1 known, 2 free, 3 height; 0 beyond the list */
} station;

typedef struct {
    int64_t kind; /* of a height difference the weight is in uu, of a position the station in from */
    int64_t from, to, east, north, up, ee, en, eu, nn, nu, uu, from_height, to_height;
} record;

typedef struct {
    size_t place;
    record prior;
} reversal;

typedef struct {
    size_t count;
    station stations[STATIONS];
    record places[PLACES];
    reversal entries[64];
    size_t next, held;
    int64_t matrix[ROW * ROW], right[ROW];
} book;

int64_t twin_call(book *b, int64_t call, int64_t place, record r);
void twin_replay(const int64_t *list, size_t words, const int64_t *calls, size_t rows, int64_t *answers);
