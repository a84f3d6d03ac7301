// The library's calls of the host in plain C: what page.h, turn.h and pair.h have, as answers in the library's records.
#include "pair.h"
#include "plain.h"
#include "turn.h"

// The 32 bytes from a place on; where not all are there a copy, in which a byte past the end is 0.
static const uint8_t *row_at(const uint8_t *bytes, size_t size, size_t at, uint8_t *copy)
{
    if (at + 32 <= size)
        return bytes + at;
    memset(copy, 0, 32);
    if (at < size)
        memcpy(copy, bytes + at, size - at);
    return copy;
}

struct recorder_sense plain_sense(uint8_t number)
{
    static const struct recorder_sense senses[] = {
        {1, 0, 0x00, 0x00}, {1, 0, 0x00, 0x00}, {1, 2, 0x04, 0x24}, {1, 3, 0x31, 0x04},
        {1, 5, 0x24, 0x00}, {1, 5, 0x21, 0x00}, {1, 5, 0x20, 0x00},
    };
    return number < sizeof senses / sizeof *senses ? senses[number] : (struct recorder_sense){0};
}

// ---- The readers

static struct recorder_reading offence_at(size_t place)
{
    return (struct recorder_reading){.place = place, .answer = 9};
}

static struct recorder_reading reading_of(const uint8_t *bytes, size_t whole, int torn, enum order order)
{
    struct recorder_header header = {number_of(bytes, order), returned_of(bytes, order), busy_of(bytes, order), limit_of(bytes, order),
                                     removed_of(bytes, order)};
    return (struct recorder_reading){.header = header, .whole = whole, .torn = torn};
}

struct recorder_reading plain_read(const uint8_t *page, size_t size, struct recorder_request request)
{
    ssize_t offence = check(page, size, request);
    if (offence >= 0)
        return offence_at(offence);
    return reading_of(page, returned_of(page, LITTLE), 0, LITTLE);
}

struct recorder_reading plain_scsi_read(const uint8_t *data, size_t size, struct recorder_query query)
{
    ssize_t offence = check_data(data, size, query);
    if (offence >= 0)
        return offence_at(offence);
    return reading_of(data, whole_of(data, size), is_torn(data, size), BIG);
}

static struct recorder_slot slot_of(const uint8_t *row, enum order order)
{
    struct recorder_descriptor descriptor = {id_of(row, order), flag_of(row), type_of(row), health_of(row), capacity_of(row, order)};
    return (struct recorder_slot){descriptor, 1};
}

// Outside at or above the returned number: the page need not be one that the reader takes.
struct recorder_slot plain_descriptor(const uint8_t *page, size_t size, uint32_t k)
{
    uint8_t copy[32];
    if (k >= returned_of(row_at(page, size, 0, copy), LITTLE))
        return (struct recorder_slot){0};
    return slot_of(row_at(page, size, 32 + 32 * (size_t)k, copy), LITTLE);
}

struct recorder_slot plain_scsi_descriptor(const uint8_t *data, size_t size, uint32_t k)
{
    if (size < 32 || k >= whole_of(data, size))
        return (struct recorder_slot){0};
    return slot_of(data + 32 + 32 * (size_t)k, BIG);
}

// ---- The listings

enum { MOST_LINE = 128 }; // No line is longer.

static struct recorder_written no_room(void)
{
    return (struct recorder_written){.answer = 7};
}

static struct recorder_written refuse(size_t place, uint8_t *out, size_t room)
{
    char line[MOST_LINE];
    size_t size = put_refusal(line, place) - line;
    if (room < size)
        return no_room();
    memcpy(out, line, size);
    return (struct recorder_written){.count = size};
}

// How long the text is, line by line.
static size_t measure(const uint8_t *bytes, size_t size, size_t whole, enum order order)
{
    char line[MOST_LINE];
    size_t sum = put_header(line, bytes, order) - line;
    for (size_t k = 0; k < whole; k++)
        sum += put_line(line, bytes + 32 + 32 * k, order) - line;
    return sum + (order == BIG ? put_tally(line, bytes, size) - line : 0);
}

// The text of a list that was taken. Where the longest lines fit, 36 bytes a descriptor, it is not measured.
static struct recorder_written put_text(const uint8_t *bytes, size_t size, size_t whole, enum order order, uint8_t *out, size_t room)
{
    char *to = (char *)out;
    if (room < 2 * MOST_LINE + 36 * whole && room < measure(bytes, size, whole, order))
        return no_room();
    to = put_header(to, bytes, order);
    to = put_list(to, bytes, whole, order);
    if (order == BIG)
        to = put_tally(to, bytes, size);
    return (struct recorder_written){.count = to - (char *)out};
}

struct recorder_written plain_list(const uint8_t *page, size_t size, uint8_t *out, size_t room)
{
    ssize_t offence = check_listed(page, size);
    if (offence >= 0)
        return refuse(offence, out, room);
    return put_text(page, size, returned_of(page, LITTLE), LITTLE, out, room);
}

struct recorder_written plain_scsi_list(const uint8_t *data, size_t size, uint8_t *out, size_t room)
{
    ssize_t offence = check_listed_data(data, size);
    if (offence >= 0)
        return refuse(offence, out, room);
    return put_text(data, size, whole_of(data, size), BIG, out, room);
}

// ---- The conversions

struct recorder_converted plain_to_scsi(const uint8_t *page, size_t size, struct recorder_request request, uint8_t *out, size_t room)
{
    return to_scsi(page, size, request, out, room);
}

struct recorder_converted plain_to_ata(const uint8_t *data, size_t size, struct recorder_query query, uint16_t pages, uint8_t *out,
                                       size_t room)
{
    return to_ata(data, size, query, pages, out, room);
}

// ---- The walk (request 2026-04)

struct recorder_move plain_next(const uint8_t *page, size_t size, struct recorder_request request)
{
    ssize_t offence = check(page, size, request);
    if (offence >= 0)
        return (struct recorder_move){.place = offence, .answer = 9};
    uint64_t last = reach(page, page + 32 * (size_t)returned_of(page, LITTLE));
    if (last >= 0xFFFFFFFF)
        return (struct recorder_move){0};
    return (struct recorder_move){.start = last + 1, .asks = 1};
}

struct recorder_request plain_next_request(struct recorder_request request, uint32_t start, uint16_t pages)
{
    return (struct recorder_request){request.feature, pages, start};
}

// ---- Two pages compared (request 2026-01)

// A page, and its first 32 bytes.
struct page {
    const uint8_t *bytes;
    size_t size;
    const uint8_t *header;
    uint8_t copy[32];
};

static void enter(struct page *p, const uint8_t *bytes, size_t size)
{
    p->bytes = bytes;
    p->size = size;
    p->header = row_at(bytes, size, 0, p->copy);
}

static uint64_t reach_of(const struct page *p)
{
    uint8_t copy[32];
    return reach(p->header, row_at(p->bytes, p->size, 32 * (size_t)returned_of(p->header, LITTLE), copy));
}

struct recorder_opening plain_open(const uint8_t *older, size_t older_size, const uint8_t *newer, size_t newer_size,
                                   struct recorder_request request)
{
    struct page a, b;
    if (check(older, older_size, request) >= 0)
        return (struct recorder_opening){.turn = RECORDER_OLDER, .answer = 9};
    if (check(newer, newer_size, request) >= 0)
        return (struct recorder_opening){.turn = RECORDER_NEWER, .answer = 9};
    enter(&a, older, older_size);
    enter(&b, newer, newer_size);
    uint64_t end = nearer_of(reach_of(&a), reach_of(&b));
    return (struct recorder_opening){.end = nearer_of(end, PAST - 1), .cut = end != PAST};
}

// A page's identifier at a number; PAST where it has no further descriptor.
static uint64_t key_at(const struct page *p, uint32_t k, const uint8_t *row)
{
    return k < returned_of(p->header, LITTLE) ? id_of(row, LITTLE) : PAST;
}

struct recorder_difference plain_next_difference(const uint8_t *older, size_t older_size, const uint8_t *newer, size_t newer_size,
                                                 struct recorder_cursor from)
{
    struct page a, b;
    enter(&a, older, older_size);
    enter(&b, newer, newer_size);
    uint64_t end = nearer_of(nearer_of(reach_of(&a), reach_of(&b)), PAST - 1);
    for (uint32_t i = from.older, j = from.newer;; i++, j++) {
        uint8_t copies[2][32];
        const uint8_t *x = row_at(older, older_size, 32 + 32 * (size_t)i, copies[0]);
        const uint8_t *y = row_at(newer, newer_size, 32 + 32 * (size_t)j, copies[1]);
        uint64_t in_older = key_at(&a, i, x), in_newer = key_at(&b, j, y);
        if (nearer_of(in_older, in_newer) > end)
            return (struct recorder_difference){.kind = RECORDER_NO_MORE};
        if (in_older < in_newer)
            return (struct recorder_difference){.at = {i, 0}, .next = {i + 1, j}, .kind = RECORDER_ONLY_OLDER};
        if (in_newer < in_older)
            return (struct recorder_difference){.at = {0, j}, .next = {i, j + 1}, .kind = RECORDER_ONLY_NEWER};
        if (is_changed(x, y))
            return (struct recorder_difference){.at = {i, j}, .next = {i + 1, j + 1}, .kind = RECORDER_CHANGED};
    }
}

// The descriptor at a number, whose bytes must all be there.
static struct recorder_span span_of(const uint8_t *bytes, size_t size, uint32_t k, uint8_t turn)
{
    struct page p;
    size_t place = 32 + 32 * (size_t)k;
    enter(&p, bytes, size);
    if (k >= returned_of(p.header, LITTLE) || size < place + 32)
        return (struct recorder_span){0};
    return (struct recorder_span){place, 32, turn};
}

struct recorder_span plain_span(const uint8_t *older, size_t older_size, const uint8_t *newer, size_t newer_size,
                                struct recorder_difference difference)
{
    switch (difference.kind) {
    case RECORDER_ONLY_OLDER:
        return span_of(older, older_size, difference.at.older, RECORDER_OLDER);
    case RECORDER_ONLY_NEWER:
    case RECORDER_CHANGED:
        return span_of(newer, newer_size, difference.at.newer, RECORDER_NEWER);
    default:
        return (struct recorder_span){0};
    }
}
