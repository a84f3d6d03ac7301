// Two status pages compared, in plain C (request 2026-01): how far, and whether an element has changed.
#include "page.h"

#define PAST (1ull << 32) // Above every identifier.

static inline uint64_t nearer_of(uint64_t a, uint64_t b) { return a < b ? a : b; }

// A page that was cut short reaches up to its last identifier. `last` is its last descriptor, or without one its header, whose returned
// number stands where an identifier does, and is 0.
static inline uint64_t reach(const uint8_t *header, const uint8_t *last)
{
    return number_of(header, LITTLE) > returned_of(header, LITTLE) ? id_of(last, LITTLE) : PAST;
}

static inline int is_changed(const uint8_t *a, const uint8_t *b)
{
    return type_of(a) != type_of(b) || health_of(a) != health_of(b) || flag_of(a) != flag_of(b) ||
           capacity_of(a, LITTLE) != capacity_of(b, LITTLE);
}
