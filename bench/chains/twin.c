/* A plain C test 2, for the comparison of speed: 0, or 11 + 256 times the first unknown without a chain. */
#include "../untied.h"

int64_t twin_untied(const int64_t *book, const int at[96]) {
    int q = untied(book, at);
    return q < 96 ? 11 + 256 * (int64_t)(at[q] + 1) : 0;
}
