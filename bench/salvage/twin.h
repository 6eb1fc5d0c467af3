/* The slices of a salvage, as dombrelat_salvage takes them, and the plain C one. */
#include <stddef.h>
#include <stdint.h>

struct salvage {
    const uint8_t *damaged;
    size_t damaged_bytes;
    uint8_t *fresh;
    size_t fresh_bytes;
    uint8_t *skipped;
    size_t skipped_bytes;
    uint8_t *kept;
    size_t kept_bytes;
    uint8_t *counts;
    size_t counts_bytes;
};

/* 0, or 10 where a slice has too little room. */
int64_t twin_salvage(const struct salvage *s);
