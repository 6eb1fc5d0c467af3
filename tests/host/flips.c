/* Every single-bit flip of a book in a file: a call on it is refused with 25, or the bytes are a book by the rules. The answers are told apart by a strike of place 0, which
 * is refused with 2 on a book that reads. Prints the bit of each flip that reads, one a line, for tests/host/flips.py to judge, and last 'tried' and the number of flips; a
 * call that writes a byte or answers otherwise ends the run with 1. */
#include "dombrelat.h"

#include <stdio.h>
#include <string.h>

static uint8_t book[DOMBRELAT_BOOK_BYTES], before[DOMBRELAT_BOOK_BYTES];

int main(int count, char **words) {
    FILE *f = count > 1 ? fopen(words[1], "rb") : NULL;
    size_t bit;
    if (!f || fread(book, 1, sizeof book, f) != sizeof book) {
        printf("no book to read\n");
        return 1;
    }
    fclose(f);
    if (dombrelat_strike(book, sizeof book, 0) != DOMBRELAT_BAD_PLACE) {
        printf("the book itself does not read\n");
        return 1;
    }
    for (bit = 0; bit < 8 * sizeof book; bit++) {
        int64_t answer;
        book[bit / 8] ^= (uint8_t)(1u << bit % 8);
        memcpy(before, book, sizeof book);
        answer = dombrelat_strike(book, sizeof book, 0);
        if (memcmp(before, book, sizeof book) != 0) {
            printf("bit %zu: a refused call wrote\n", bit);
            return 1;
        }
        if (answer == DOMBRELAT_BAD_PLACE) {
            printf("%zu\n", bit);
        } else if (answer != DOMBRELAT_BAD_BOOK) {
            printf("bit %zu: answered %lld\n", bit, (long long)answer);
            return 1;
        }
        book[bit / 8] ^= (uint8_t)(1u << bit % 8);
    }
    printf("tried %zu\n", bit);
    return 0;
}
