// A status page, or SCSI data, in plain C: its fields, its checks in the order of document 01 and of request 2026-03, and its text.
#ifndef PAGE_H
#define PAGE_H
#include "../c/text.h"
#include "order.h"
#include "request.h"
#include <unistd.h>

static inline uint32_t number_of(const uint8_t *page, enum order order) { return load(page, 4, order); }
static inline uint32_t returned_of(const uint8_t *page, enum order order) { return load(page + 4, 4, order); }
static inline uint32_t busy_of(const uint8_t *page, enum order order) { return load(page + 8, 4, order); }
static inline uint16_t limit_of(const uint8_t *page, enum order order) { return load(page + 12, 2, order); }
static inline uint16_t removed_of(const uint8_t *page, enum order order) { return load(page + 14, 2, order); }

static inline uint32_t id_of(const uint8_t *descriptor, enum order order) { return load(descriptor + 4, 4, order); }
static inline int flag_of(const uint8_t *descriptor) { return descriptor[13] & 1; }
static inline uint8_t type_of(const uint8_t *descriptor) { return descriptor[14]; }
static inline uint8_t health_of(const uint8_t *descriptor) { return descriptor[15]; }
static inline uint64_t capacity_of(const uint8_t *descriptor, enum order order) { return load(descriptor + 16, 8, order); }

// ---- The checks: each answers with the place of the first offence, or -1

static inline int passes(uint8_t filter, uint8_t health)
{
    return filter == 0 || (health >= 0x65 && health <= 0xCF) || health == 0xFF;
}

// The first `count` descriptors.
static inline ssize_t check_list(const uint8_t *page, size_t count, enum order order, struct recorder_query query)
{
    uint32_t last = 0;
    for (size_t at = 32; at < 32 + 32 * count; at += 32) {
        const uint8_t *descriptor = page + at;
        uint32_t id = id_of(descriptor, order);
        if (id <= last || id < query.start)
            return at + 4;
        if (flag_of(descriptor) && health_of(descriptor) != 0xFF)
            return at + 13;
        if (query.report == 1 && type_of(descriptor) != 1)
            return at + 14;
        if (!passes(query.filter, health_of(descriptor)))
            return at + 15;
        last = id;
    }
    return -1;
}

// A page as the answer to a request.
static inline ssize_t check(const uint8_t *page, size_t length, struct recorder_request request)
{
    if (is_refused(request))
        return 0;
    if (length != 512 * (size_t)request.count)
        return 0;
    size_t number = number_of(page, LITTLE), most = 16 * (size_t)request.count - 1, returned = number < most ? number : most;
    if (returned_of(page, LITTLE) != returned)
        return 4;
    ssize_t offence = check_list(page, returned, LITTLE, query_of(request));
    if (offence >= 0)
        return offence;
    for (size_t at = 32 + 32 * returned; at < length; at++)
        if (page[at] != 0)
            return at;
    return -1;
}

// How many descriptors of SCSI data are there whole; it has a header.
static inline size_t whole_of(const uint8_t *data, size_t length)
{
    size_t number = number_of(data, BIG), there = length / 32 - 1;
    return number < there ? number : there;
}

// Whether one of them is cut through.
static inline int is_torn(const uint8_t *data, size_t length)
{
    return whole_of(data, length) < number_of(data, BIG) && length % 32 != 0;
}

// SCSI data as the answer to a request.
static inline ssize_t check_data(const uint8_t *data, size_t length, struct recorder_query query)
{
    if (length < 32 || is_refused_query(query))
        return 0;
    if (returned_of(data, BIG) != number_of(data, BIG))
        return 4;
    ssize_t offence = check_list(data, whole_of(data, length), BIG, query);
    size_t end = 32 + 32 * (size_t)number_of(data, BIG);
    return offence < 0 && end < length ? (ssize_t)end : offence;
}

// What is listed: at most 65,536 bytes, as the answer to filter 0, report type 0 and start 0, and of a page for as many as the input has.
enum { MOST_LISTED = 65536 };

static inline struct recorder_request request_for(size_t length)
{
    return (struct recorder_request){.count = length / 512};
}

static inline ssize_t check_listed(const uint8_t *page, size_t length)
{
    return length > MOST_LISTED ? MOST_LISTED : check(page, length, request_for(length));
}

static inline ssize_t check_listed_data(const uint8_t *data, size_t length)
{
    return length > MOST_LISTED ? MOST_LISTED : check_data(data, length, (struct recorder_query){0});
}

// ---- The text

static inline char *put_refusal(char *to, size_t place) { return put_numbered(to, "refused 9 at ", place); }

static inline char *put_header(char *to, const uint8_t *page, enum order order)
{
    to = put_words(to, "number ");
    to = put_decimal(to, number_of(page, order));
    to = put_words(to, " returned ");
    to = put_decimal(to, returned_of(page, order));
    to = put_words(to, " busy ");
    to = put_hex(to, busy_of(page, order), 8);
    to = put_words(to, " limit ");
    to = put_decimal(to, limit_of(page, order));
    to = put_words(to, " removed ");
    to = put_decimal(to, removed_of(page, order));
    *to++ = '\n';
    return to;
}

// Type, health and capacity.
static inline char *put_values(char *to, const uint8_t *descriptor, enum order order)
{
    to = put_hex(to, type_of(descriptor), 2);
    *to++ = ' ';
    to = put_hex(to, health_of(descriptor), 2);
    *to++ = ' ';
    if (capacity_of(descriptor, order) != ~0ull)
        return put_decimal(to, capacity_of(descriptor, order));
    *to++ = '-';
    return to;
}

static inline char *put_line(char *to, const uint8_t *descriptor, enum order order)
{
    to = put_hex(to, id_of(descriptor, order), 8);
    *to++ = ' ';
    to = put_values(to, descriptor, order);
    *to++ = '\n';
    return to;
}

// The first `count` descriptors, a line each.
static inline char *put_list(char *to, const uint8_t *page, size_t count, enum order order)
{
    const uint8_t *end = page + 32 + 32 * count;
    for (const uint8_t *descriptor = page + 32; descriptor < end; descriptor += 32)
        to = put_line(to, descriptor, order);
    return to;
}

// What of the list of SCSI data is not there, if anything.
static inline char *put_tally(char *to, const uint8_t *data, size_t length)
{
    size_t number = number_of(data, BIG), whole = whole_of(data, length);
    if (whole == number)
        return to;
    to = put_words(to, is_torn(data, length) ? "torn " : "cut ");
    to = put_decimal(to, whole);
    return put_numbered(to, " of ", number);
}

#endif
