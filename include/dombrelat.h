/* Dombrelat: a record book for survey control points, and the check of a least squares solution against it.
 *
 * All lengths are in units of 0.01 mm, all numbers are int64_t. Weight 1 means a standard deviation of 10 mm (1,000 units); 1 mm is weight 100.
 *
 * A slice is a pointer and a length in bytes. Words in it are 8 bytes, little-endian, two's complement: on a little-endian machine an array of int64_t as it stands. No
 * alignment is needed.
 *
 * A book is the bytes that dombrelat_open writes, and nothing else: it may be copied (memcpy), stored in a file and read on another machine, where its bytes are the same.
 *
 * What the caller owes, since C cannot promise it: no pointer is null, also at length 0; slices given to one call do not overlap; each is as long as its length says.
 * Nothing else: every call answers every input. A refused call writes nothing at all.
 *
 * The calls keep no state and allocate nothing, so they are re-entrant: threads may call at the same time, on books of their own. One book has one writer at a time (open, enter,
 * also of a file, strike and undo write), and nobody reads it meanwhile; calls that only read may share it. So it is with a file, on which dombrelat_write_file writes, and
 * dombrelat_salvage: on the fresh one, while the damaged one is only read.
 *
 * A result is refusal + 256 * number, but for dombrelat_write_file, whose result is a refusal or a length in bytes as it is, a multiple of 128. DOMBRELAT_REFUSAL(result) is 0 (done,
 * accepted, agreed, or a length) or the refusal's number: DOMBRELAT_ constants below, all of them less than 128, in words in docs/REFUSALS.md. Where several apply, the lowest number is
 * given, but DOMBRELAT_BAD_BOOK comes before all others, and DOMBRELAT_BAD_DISTANCE before 10 to 16. DOMBRELAT_NUMBER(result) is the number that a call gives: the unknown of
 * DOMBRELAT_UNTIED, or what a reading call counts; otherwise 0. It is not for a length. Two results are negative and stand by themselves, DOMBRELAT_NO_PROPOSAL and
 * DOMBRELAT_DISAGREES: DOMBRELAT_REFUSAL gives them as they are. So a switch goes through DOMBRELAT_REFUSAL, since no result is DOMBRELAT_UNTIED itself:
 *
 *     switch (DOMBRELAT_REFUSAL(result)) {
 *     case DOMBRELAT_UNTIED: printf("unknown %d\n", (int)DOMBRELAT_NUMBER(result)); break; ...
 *
 * To link: `(cd crates/dombrelat && rt lib)` writes crates/dombrelat/out/libdombrelat.a, for x86-64-v2 Linux; `cc -Iinclude host.c crates/dombrelat/out/libdombrelat.a`. examples/host.c is
 * a whole program, examples/files.c another, with files.
 */
#ifndef DOMBRELAT_H
#define DOMBRELAT_H

#include <stddef.h>
#include <stdint.h>

#ifdef __cplusplus
extern "C" {
#endif

/* The version of this header and of the library that it belongs to. It goes up where an existing call gives another answer or is gone. 2: dombrelat_check_sheet leaves records between
 * two known stations out of the square sum, the degrees of freedom and so the global verdict; in 1 they counted. 3: dombrelat_enter_baseline and dombrelat_enter_height, which fill a
 * place or overwrite it, stand in place of four calls that added or replaced, and DOMBRELAT_PLACE_EMPTY (7) in place of DOMBRELAT_PLACE_TAKEN. 4: dombrelat_enter_baseline takes two
 * numbers more, the antenna heights. Compile a host anew with the header of its library: an object made with an earlier header passes no heights, and no linker tells; a host that
 * declares the call itself adds them to its declaration. 5: there is a third kind of record, the position (dombrelat_enter_position), which dombrelat_record gives as kind 4, and at
 * whose station a chain of records may end. A new call leaves the version as it is, since a linker tells where it is missing: the calls on files came after the others of 5,
 * and dombrelat_salvage after those.
 * The bytes of a book have a number of their own, that of their layout: it is 3, the book's first word. Books of versions 1 to 3 have 1 there, those of version 4 have 2: both are
 * refused with 25; docs/BOOK.md says how to take one over. */
#define DOMBRELAT_VERSION 5

/* The bytes of a book. A longer slice may be lent: bytes beyond stay. The layout is in docs/BOOK.md; a program needs it only to look inside. */
#define DOMBRELAT_BOOK_BYTES 56224

/* The bytes of a station in a list, of a record as dombrelat_record writes it, and of the largest sheet (32 stations, 256 baselines or positions). */
#define DOMBRELAT_STATION_BYTES 32
#define DOMBRELAT_RECORD_BYTES 112
#define DOMBRELAT_SHEET_BYTES (8 * (5 + 7 * 32 + 7 * 256))

/* The bytes of an entry in a file. */
#define DOMBRELAT_ENTRY_BYTES 128

/* The bytes that always suffice for what dombrelat_salvage writes beside the fresh file: for each of its two lists, where the damaged file has so many bytes, and for its counts. */
#define DOMBRELAT_SALVAGE_LIST_BYTES(bytes) (16 * ((bytes) / DOMBRELAT_ENTRY_BYTES + 1))
#define DOMBRELAT_SALVAGE_COUNTS_BYTES 16

/* The stack to give a thread that makes a call. tests/host/stack.c measured 124,496 bytes on x86-64 (propose; check_sheet on a full book takes 124,312, an opening 77,864, an edit 66,032); the rest is margin. */
#define DOMBRELAT_STACK_BYTES 163840

/* Limits. */
#define DOMBRELAT_STATIONS 32
#define DOMBRELAT_UNKNOWNS 48
#define DOMBRELAT_PLACES 256
#define DOMBRELAT_UNDOS 64

/* The greatest size of a coordinate, of a station or of a position, in units. */
#define DOMBRELAT_COORDINATE_MAX 500000000

/* The greatest height of an antenna, an instrument or a target above its mark, in units; the least is 0. */
#define DOMBRELAT_HEIGHT_ABOVE_MARK_MAX 300000

/* The largest distance and tolerance of a check distance, in units. */
#define DOMBRELAT_DISTANCE_MAX 1800000000
#define DOMBRELAT_TOLERANCE_MAX 100000

/* Kinds of station. */
#define DOMBRELAT_KNOWN 1  /* E, N, U held */
#define DOMBRELAT_FREE 2   /* E, N, U unknown */
#define DOMBRELAT_HEIGHT 3 /* U unknown; E, N held */

/* Kinds of record as dombrelat_record gives them, where 0 is an empty place, and of entry in a file, which is of the first three. */
#define DOMBRELAT_BASELINE_KIND 1
#define DOMBRELAT_HEIGHT_DIFFERENCE_KIND 2
#define DOMBRELAT_STRIKE_KIND 3   /* in a file alone: no record is of this kind */
#define DOMBRELAT_POSITION_KIND 4 /* in a book alone: no file carries it */

/* Which file holds the entry in force. */
#define DOMBRELAT_NIGHT 1
#define DOMBRELAT_DAY 2

/* Refusals. */
#define DOMBRELAT_BAD_STATIONS 1      /* open: not 1 to 32 whole stations, a kind that is none, a coordinate beyond 500,000,000, or not 1 to 48 unknowns */
#define DOMBRELAT_BAD_PLACE 2         /* the place is not 1 to 256 */
#define DOMBRELAT_BAD_ENDS 3          /* from or to is not in the list, or they are equal; or the station of a position is not in the list */
#define DOMBRELAT_OUT_OF_RANGE 4      /* an observed difference or the reduced U difference beyond 1,000,000,000; an antenna height not 0 to 300,000; a coordinate of a position beyond
                                         500,000,000; a weight not 1 to 10,000, off the diagonal beyond 10,000 */
#define DOMBRELAT_BAD_MATRIX 5        /* the weight matrix is not positive definite, or gives a component (E, N or U) a variance above 16 squares of 10 mm */
#define DOMBRELAT_BAD_MISCLOSURE 6    /* observed (in U of a baseline reduced) minus provisional is beyond 100,000 units (1 m) in a component */
#define DOMBRELAT_PLACE_EMPTY 7       /* strike: the place is empty */
#define DOMBRELAT_NOTHING_TO_UNDO 8   /* the history is empty */
#define DOMBRELAT_TOO_LARGE 9         /* a sum beyond 2^62; by the limits of this version it never comes */
#define DOMBRELAT_BAD_LENGTHS 10      /* x or M is not as long as the book's unknowns ask, or a slice to write on has no room */
#define DOMBRELAT_UNTIED 11           /* an unknown has no chain of records to a held station or to one with a position: DOMBRELAT_NUMBER(result) is the first such unknown */
#define DOMBRELAT_LARGE_CORRECTION 12 /* a correction beyond 100,000 units */
#define DOMBRELAT_LARGE_VARIANCE 13   /* an entry of M beyond 2^34 */
#define DOMBRELAT_BAD_INVERSE 14      /* M is not near enough to 2^30 times the inverse of N */
#define DOMBRELAT_BAD_RESIDUAL 15     /* x does not solve the normal equations nearly enough */
#define DOMBRELAT_BAD_SOLUTION 16     /* x may be further than one unit from the least squares answer */
#define DOMBRELAT_BAD_DISTANCE 17     /* check_distance: a height not 0 to 300,000, a distance not 1 to 1,800,000,000, a tolerance not 0 to 100,000 or not below the distance */
#define DOMBRELAT_BAD_FILE 18         /* the lent bytes of a file, or of either file, do not read: damaged, cut off within an entry, or not a file */
#define DOMBRELAT_NOT_CARRIED 19      /* write_file: a record that no file carries, a position or a baseline with an antenna height that is not 0 */
#define DOMBRELAT_NO_ENTRY 20         /* entry_in_force: neither file has an entry for the place */
#define DOMBRELAT_BAD_BOOK 25         /* the lent book bytes are too short, damaged, of another layout (versions 1 to 4), or not a book */
#define DOMBRELAT_NO_PROPOSAL (-1)    /* propose: no pair that the check accepts was found */
#define DOMBRELAT_DISAGREES (-2)      /* check_distance: the distance does not agree with the sheet; an answer, as 0 is */

/* A result taken apart; that of dombrelat_write_file is a length where DOMBRELAT_REFUSAL is 0. The number of DOMBRELAT_UNTIED is the first unknown without a chain, counted from 1. */
#define DOMBRELAT_REFUSAL(result) ((result) % 128)
#define DOMBRELAT_NUMBER(result) ((result) / 256)
#define DOMBRELAT_UNTIED_UNKNOWN(result) DOMBRELAT_NUMBER(result)

/* Verdicts in a sheet. */
#define DOMBRELAT_PASS 0
#define DOMBRELAT_FAIL 1
#define DOMBRELAT_LOOSE 2
#define DOMBRELAT_LOW 3
#define DOMBRELAT_HIGH 4
#define DOMBRELAT_NONE 5

/* Opens a book on a list of 1 to 32 stations, four words each: kind, E, N, U (provisional coordinates). Stations are numbered from 1 in the list's order; unknowns, from 1, by
 * station, then E, N, U: a free station has three, a height station one (U), a known one none. The list is fixed from then on. Whatever the book bytes held is overwritten.
 * Refusals: 25 (the book bytes are too short), 1 (also where the list's length is not a multiple of 32). */
int64_t dombrelat_open(const uint8_t *list, size_t list_bytes, uint8_t *book, size_t book_bytes);

/* Enters a baseline at a place (1 to 256), which it fills or overwrites: observed differences, to minus from, the symmetric weight matrix, and the heights of the two antennas above
 * their marks, vertical, in units, 0 where the differences are from mark to mark. The reduced U difference is up + from_height - to_height: the misclosure is taken from it, and so are refusal 6, the normal
 * equations, the residuals and the sheet. A record equal to the one that is there is entered as any other, and is an edit that can be taken back. Refusals: 25, 2, 3, 4, 5, 6. */
int64_t dombrelat_enter_baseline(uint8_t *book, size_t book_bytes, int64_t place, int64_t from, int64_t to, int64_t east, int64_t north, int64_t up,
                                 int64_t ee, int64_t en, int64_t eu, int64_t nn, int64_t nu, int64_t uu, int64_t from_height, int64_t to_height);

/* The same with a levelled height difference, to minus from. Refusals: 25, 2, 3, 4, 6. */
int64_t dombrelat_enter_height(uint8_t *book, size_t book_bytes, int64_t place, int64_t from, int64_t to, int64_t up, int64_t weight);

/* The same with a position: observed coordinates of one station, in the frame of the station list, as a national mark comes with them, and the symmetric weight matrix that says how well
 * they are known: the inverse of their covariance matrix in squares of 10 mm. The misclosure is observed minus provisional coordinate in E, N and U, whatever the station's kind. A
 * position adds 3 to the degrees of freedom, and its residuals to the square sum; at a known station it does neither, since there it is a check only. A chain of records may end at its
 * station, in E, N and U, as at a held one: so a network without a held station may be accepted. Refusals: 25, 2, 3 (the station is not in the list), 4, 5, 6. */
int64_t dombrelat_enter_position(uint8_t *book, size_t book_bytes, int64_t place, int64_t station, int64_t east, int64_t north, int64_t up,
                                 int64_t ee, int64_t en, int64_t eu, int64_t nn, int64_t nu, int64_t uu);

/* Empties a filled place. Refusals: 25, 2, 7. */
int64_t dombrelat_strike(uint8_t *book, size_t book_bytes, int64_t place);

/* Takes back the latest of the last 64 accepted edits: its place holds again what it held before, a record or nothing. An undo right after an edit leaves every byte as it was before
 * both, but where the history was full: then the oldest of its edits is gone from it. Refusals: 25, 8. */
int64_t dombrelat_undo(uint8_t *book, size_t book_bytes);

/* Checks corrections x (n words) and M (n·n words by rows: 2^30 times the inverse of the normal matrix), n the book's number of unknowns. 0: accepted, and every correction is
 * within one unit of the exact least squares answer. Refusals: 25, 10 to 16. */
int64_t dombrelat_check(const uint8_t *book, size_t book_bytes, const uint8_t *x, size_t x_bytes, const uint8_t *m, size_t m_bytes);

/* The same, and on acceptance the sheet's words: records, unknowns; for each station its number, E, N, U and three variances (over 2^30, in squares of 10 mm); for each
 * record by rising place a baseline's or a position's place, three residuals and three verdicts, or a height difference's place, residual and verdict; then the weighted square sum of
 * the residuals, the degrees of freedom and the global verdict. A record between two known stations and a position at a known station are checks only: each has its words and is one
 * of the records, but the square sum and the degrees of freedom, and so the global verdict, leave it out. dombrelat_sheet_bytes says how many bytes the words take; bytes beyond
 * stay. The sheet's length is a multiple of 8. Refusals as for checking. */
int64_t dombrelat_check_sheet(const uint8_t *book, size_t book_bytes, const uint8_t *x, size_t x_bytes, const uint8_t *m, size_t m_bytes,
                              uint8_t *sheet, size_t sheet_bytes);

/* Holds a slope distance, taped after setting out, against the sheet of a pair that the check accepts. The instrument stands at from, the target at to; their heights are those
 * above the two marks. D is the length from instrument to target by the sheet's coordinates at x: D² is the sum of the squared differences to minus from, that in U plus
 * target_height minus instrument_height. 0: it agrees, which is that (distance - tolerance)² <= D² <= (distance + tolerance)². DOMBRELAT_DISAGREES: it does not. It is no record,
 * so it never enters the adjustment, and nothing is written. Refusals, in this order: 25, 3, 17, then as for checking. */
int64_t dombrelat_check_distance(const uint8_t *book, size_t book_bytes, const uint8_t *x, size_t x_bytes, const uint8_t *m, size_t m_bytes,
                                 int64_t from, int64_t to, int64_t distance, int64_t instrument_height, int64_t target_height, int64_t tolerance);

/* Proposes a pair that the check accepts, and writes it to x (n words) and m (n·n words), which are just so long. Refusals: 25, 10 (another length), DOMBRELAT_NO_PROPOSAL. */
int64_t dombrelat_propose(const uint8_t *book, size_t book_bytes, uint8_t *x, size_t x_bytes, uint8_t *m, size_t m_bytes);

/* Reading a book. What a call counts is DOMBRELAT_NUMBER(result). */

/* The number of unknowns, n. Refusals: 25. */
int64_t dombrelat_unknowns(const uint8_t *book, size_t book_bytes);

/* The bytes that dombrelat_check_sheet needs for the records as they are now, at most DOMBRELAT_SHEET_BYTES. Refusals: 25. */
int64_t dombrelat_sheet_bytes(const uint8_t *book, size_t book_bytes);

/* Writes the station list as dombrelat_open took it, 32 bytes a station, and counts the stations. Bytes beyond stay. Refusals: 25, 10 (the list has no room). */
int64_t dombrelat_stations(const uint8_t *book, size_t book_bytes, uint8_t *list, size_t list_bytes);

/* Writes the 14 words of what a place holds: kind (0 empty, 1 baseline, 2 height difference, 4 position), from or a position's station, to, observed E, N, U, weights EE, EN, EU, NN,
 * NU, UU, from_height, to_height. A height difference has its difference in U and its weight in UU; what a record does not use is 0. U is as it was observed: of a baseline, from mark
 * to mark it is word 5 + word 12 - word 13, counted from 0. Bytes beyond stay. Refusals: 25, 2, 10 (less than 112 bytes). */
int64_t dombrelat_record(const uint8_t *book, size_t book_bytes, int64_t place, uint8_t *record, size_t record_bytes);

/* Files: records and strikes as the depot exchanges them. A file is entries end to end, 128 bytes each: sixteen words. The first thirteen are kind (1 baseline, 2 height difference,
 * 3 strike), place (1 to 256), from, to, observed E, N, U, weights EE, EN, EU, NN, NU, UU; a height difference has its difference in U and its weight in UU, a strike its place alone,
 * and what a kind does not use is 0. The last three are the trailer: the byte at which the entry starts, the byte at which the trailer of the entry before it starts (-1 in the first
 * entry), and the sum of the fifteen words before it modulo 2^64. A file reads where all of that holds of every entry, and else is refused with 18. Stations, observed values and weights
 * are judged when they are entered, and not before. No bytes are a file without entries, which reads. docs/FILES.md has an entry word by word, and a file as an example. */

/* Writes the records of a book as a file, by rising place, and gives its length: 128 bytes a record, 0 for a book without records. The history is not in it. Bytes beyond stay.
 * Refusals, in this order: 25, 10 (the file has less than 128 bytes a record, those among them that it could not carry), 19. */
int64_t dombrelat_write_file(const uint8_t *book, size_t book_bytes, uint8_t *file, size_t file_bytes);

/* Whether a file reads: 0 where it does. Refusals: 18. */
int64_t dombrelat_check_file(const uint8_t *file, size_t file_bytes);

/* Finds the entry in force for a place (1 to 256): the latest that the night file has for it, and where it has none the latest of the day file. 0, and in found two words: the file that
 * holds it, DOMBRELAT_NIGHT or DOMBRELAT_DAY, and the byte at which the entry starts there. Where the latest of the night file is a strike it is that strike, whatever the day file has.
 * Bytes beyond stay. Refusals, in this order: 2, 10 (found has less than 16 bytes), 18 (either file does not read, also where the other one has the entry), 20. */
int64_t dombrelat_entry_in_force(const uint8_t *night, size_t night_bytes, const uint8_t *day, size_t day_bytes, int64_t place, uint8_t *found, size_t found_bytes);

/* Makes the entries of a file in their order, each as a call of its own: kind 1 as dombrelat_enter_baseline with antenna heights 0, kind 2 as dombrelat_enter_height, kind 3 as
 * dombrelat_strike. Word i of answers is what the call of entry i gave, both counted from 0: 0, or 3 to 7. An entry that is refused changes nothing, and the next one is made all the same;
 * one that is accepted is an edit, which an undo takes back by itself. Bytes of the answers beyond stay. 0 where the file was gone through, whatever the answers. Refusals, in this order,
 * by which no entry is made and no answer written: 25, 10 (the answers have less than 8 bytes for each whole 128 bytes of the file), 18. */
int64_t dombrelat_enter_file(uint8_t *book, size_t book_bytes, const uint8_t *file, size_t file_bytes, uint8_t *answers, size_t answers_bytes);

/* Salvages what a damaged file still holds, as a transfer leaves it that was broken off. It goes forward from byte 0 by steps of 8 bytes: where the next 128 bytes have a right kind, a
 * right place, 0 in the words that the kind does not use and a right sum, it keeps that entry and goes on behind it. Every other byte is skipped, those too at the end where 128 are not
 * left. The first two words of the trailer count in the sum, but need not be right. 0, and written are
 *     fresh    a file of the kept entries in their order: of each its thirteen words and a new trailer, 128 bytes. It reads, whatever the damaged bytes are.
 *     skipped  two words for each longest run of skipped bytes: the byte at which it starts, and its length in bytes, which at the end may be any
 *     kept     two words for each kept entry: the byte at which it starts in the damaged file, and the byte at which it starts in the fresh one
 *     counts   two words: the runs in skipped, and the entries in kept
 * Both lists are by rising start. The runs and the kept entries together are the bytes of the damaged file, each of them once. A file that reads comes out unchanged, with no run. Bytes
 * beyond stay. Room that always suffices: fresh as long as the damaged file, each list DOMBRELAT_SALVAGE_LIST_BYTES of that length, counts DOMBRELAT_SALVAGE_COUNTS_BYTES.
 * Refusals: 10 (fresh has less than 128 bytes for each kept entry, skipped less than 16 for each run, kept less than 16 for each kept entry, or counts less than 16); then nothing is
 * written, the counts neither. No other: bytes that hold no entry give an empty fresh file and one run, no bytes give no run.
 * It does not tell which entries are lost, nor whether an entry that adds up is as it was sent: docs/FILES.md says what to ask for again. */
int64_t dombrelat_salvage(const uint8_t *damaged, size_t damaged_bytes, uint8_t *fresh, size_t fresh_bytes, uint8_t *skipped, size_t skipped_bytes,
                          uint8_t *kept, size_t kept_bytes, uint8_t *counts, size_t counts_bytes);

#ifdef __cplusplus
}
#endif

#endif
