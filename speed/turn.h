// A status page as SCSI data, and back, in plain C (request 2026-03): the same numbers in the other byte order, reserved bytes as zeros.
#include "page.h"

// Turns a number of so many bytes round.
static inline void turn(uint8_t *to, const uint8_t *from, size_t size)
{
    store(to, load(from, size, LITTLE), size, BIG);
}

static inline void turn_header(uint8_t *to, const uint8_t *from)
{
    memset(to, 0, 32);
    turn(to, from, 4);
    turn(to + 4, from + 4, 4);
    turn(to + 8, from + 8, 4);
    turn(to + 12, from + 12, 2);
    turn(to + 14, from + 14, 2);
}

static inline void turn_descriptor(uint8_t *to, const uint8_t *from)
{
    memset(to, 0, 32);
    turn(to + 4, from + 4, 4);
    to[13] = flag_of(from);
    to[14] = type_of(from);
    to[15] = health_of(from);
    turn(to + 16, from + 16, 8);
}

// The header and the first `count` descriptors.
static inline void turn_list(uint8_t *to, const uint8_t *from, size_t count)
{
    turn_header(to, from);
    for (size_t at = 32; at < 32 + 32 * count; at += 32)
        turn_descriptor(to + at, from + at);
}

static inline struct recorder_converted converted(size_t count) { return (struct recorder_converted){.count = count}; }
static inline struct recorder_converted too_small(void) { return (struct recorder_converted){.answer = 7}; }
static inline struct recorder_converted refused_at(size_t place) { return (struct recorder_converted){.place = place, .answer = 9}; }

// A page as the answer to a request.
static inline struct recorder_converted to_scsi(const uint8_t *page, size_t length, struct recorder_request request, uint8_t *to,
                                                size_t room)
{
    ssize_t offence = check(page, length, request);
    if (offence >= 0)
        return refused_at(offence);
    size_t number = number_of(page, LITTLE), size = 32 + 32 * number;
    if (returned_of(page, LITTLE) != number)
        return refused_at(4);
    if (room < size)
        return too_small();
    turn_list(to, page, number);
    return converted(size);
}

// SCSI data as the answer to a request, on so many pages.
static inline struct recorder_converted to_ata(const uint8_t *data, size_t length, struct recorder_query query, uint16_t pages, uint8_t *to,
                                               size_t room)
{
    ssize_t offence = check_data(data, length, query);
    if (offence >= 0)
        return refused_at(offence);
    size_t number = number_of(data, BIG), end = 32 + 32 * number, size = 512 * (size_t)pages;
    if (length < end || size < end)
        return refused_at(4);
    if (room < size)
        return too_small();
    turn_list(to, data, number);
    memset(to + end, 0, size - end);
    return converted(size);
}
