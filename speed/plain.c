// Document 01 in plain C, in place: the library's calls on a device.
#include "order.h"
#include "plain.h"
#include "request.h"

#define LBA_BITS ((1ull << 48) - 1) // Those that count.

enum { MOST = 128 }; // Elements past these do not count.

// ---- Table and cells

static size_t count_of(const struct recorder_device *d)
{
    return d->count < MOST ? d->count : MOST;
}

static const struct recorder_part *find(const struct recorder_device *d, uint32_t id)
{
    const struct recorder_part *end = d->parts + count_of(d);
    for (const struct recorder_part *part = d->parts; part < end; part++)
        if (part->id >= id)
            return part->id == id ? part : NULL;
    return NULL;
}

static uint8_t *health_of(struct recorder_device *d, const struct recorder_part *part)
{
    return &d->healths[part - d->parts];
}

static unsigned removed(const struct recorder_device *d)
{
    unsigned n = 0;
    size_t count = count_of(d);
    for (size_t i = 0; i < count; i++)
        n += d->healths[i] == 0xFF;
    return n;
}

static uint32_t position_of(const struct recorder_device *d)
{
    return d->position <= WIND_4 ? d->position : WIND_1;
}

// ---- A new device

// The blocks of an offered table, or 0 if it is refused.
static uint64_t check_table(const struct recorder_element *list, size_t count, uint16_t limit)
{
    uint64_t sum = 0;
    uint32_t last = 0;
    if (count > MOST || limit > MOST)
        return 0;
    for (size_t i = 0; i < count; i++) {
        const struct recorder_element *e = &list[i];
        if (e->id <= last || e->health > 0xCF || (e->kind != 1 && e->blocks != 0) || e->blocks > (1ull << 48) - sum)
            return 0;
        last = e->id;
        sum += e->blocks;
    }
    return sum < 2 ? 0 : sum;
}

uint8_t plain_make(struct recorder_device *d, const struct recorder_element *list, size_t count, uint16_t limit)
{
    uint64_t sum = check_table(list, count, limit);
    if (sum == 0)
        return 8;
    memset(d, 0, sizeof *d);
    for (size_t i = 0; i < count; i++) {
        const struct recorder_element *e = &list[i];
        d->parts[i] = (struct recorder_part){.id = e->id, .kind = e->kind, .unreported = e->unreported, .blocks = e->blocks};
        d->healths[i] = e->health;
    }
    d->native = d->accessible = sum - 1;
    d->count = count;
    d->limit = limit;
    return 0;
}

// ---- REMOVE ELEMENT AND TRUNCATE (7Ch)

uint8_t plain_remove(struct recorder_device *d, uint8_t security, uint16_t feature, uint16_t count, uint64_t lba)
{
    uint32_t id = (uint32_t)feature << 16 | count;
    lba &= LBA_BITS;
    if (security != RECORDER_UNLOCKED && security != RECORDER_FROZEN)
        return 1;
    if (d->note_full)
        return 2;
    const struct recorder_part *part = find(d, id);
    if (!part || part->kind != 1)
        return 4;
    if (*health_of(d, part) == 0xFF) {
        d->failed = 0;
        return 0;
    }
    if (d->limit && removed(d) >= d->limit)
        return 4;
    if (d->native <= part->blocks)
        return 4;
    uint64_t difference = d->native - part->blocks;
    if (lba > difference)
        return 4;
    d->note_full = 1;
    d->note_element = id;
    d->note_old = d->native;
    d->note_new = lba ? lba : difference;
    d->position = WORK_1;
    return 0;
}

// Where winding up takes the addresses.
static uint64_t wound_up(struct recorder_device *d)
{
    const struct recorder_part *part = find(d, d->note_element);
    return part && *health_of(d, part) == 0xFF ? d->note_new : d->note_old;
}

static void mark_noted(struct recorder_device *d)
{
    const struct recorder_part *part = find(d, d->note_element);
    if (part)
        *health_of(d, part) = 0xFF;
}

// A work step, or a step of winding up.
uint8_t plain_step(struct recorder_device *d)
{
    uint32_t position = position_of(d);
    if (!d->note_full)
        return 10;
    switch (position) {
    case WORK_1:
        d->native = d->note_new;
        break;
    case WORK_2:
        d->accessible = d->note_new;
        break;
    case WORK_3:
        mark_noted(d);
        break;
    case WORK_4:
        d->failed = 0;
        break;
    case WIND_1:
        d->native = wound_up(d);
        break;
    case WIND_2:
        d->accessible = wound_up(d);
        break;
    case WIND_3:
        if (!d->failed)
            d->failed = 1;
        break;
    default: // WORK_5, WIND_4
        d->note_full = 0;
        d->position = WORK_1;
        return 0;
    }
    d->position = position + 1;
    return 0;
}

// A number that says so already stays as it is.
static void wind_up(struct recorder_device *d)
{
    if (position_of(d) != WIND_1)
        d->position = WIND_1;
}

uint8_t plain_media_error(struct recorder_device *d)
{
    if (!d->note_full)
        return 10;
    wind_up(d);
    return 0;
}

uint8_t plain_power_cut(struct recorder_device *d)
{
    if (d->note_full)
        wind_up(d);
    return 0;
}

// The resets change nothing (002).
uint8_t plain_comreset(struct recorder_device *d)
{
    (void)d;
    return 0;
}

uint8_t plain_hardware_reset(struct recorder_device *d)
{
    (void)d;
    return 0;
}

uint8_t plain_software_reset(struct recorder_device *d)
{
    (void)d;
    return 0;
}

uint8_t plain_grade(struct recorder_device *d, uint32_t id, uint8_t health)
{
    const struct recorder_part *part = find(d, id);
    if (!part || *health_of(d, part) == 0xFF || health > 0xCF)
        return 11;
    *health_of(d, part) = health;
    return 0;
}

// ---- GET PHYSICAL ELEMENT STATUS (12h)

static int does_ask(struct recorder_query q, const struct recorder_part *part, uint8_t health)
{
    if (part->id < q.start)
        return 0;
    if (q.report == 1 && part->kind != 1)
        return 0;
    if (q.filter == 1)
        return (health >= 0x65 && health <= 0xCF) || health == 0xFF;
    return 1;
}

static void put_header(uint8_t *to, const struct recorder_device *d, size_t number, size_t returned, enum order order)
{
    store(to, number, 4, order);
    store(to + 4, returned, 4, order);
    store(to + 8, d->note_full ? d->note_element : 0, 4, order);
    store(to + 12, d->limit, 2, order);
    store(to + 14, removed(d), 2, order);
    store(to + 16, 0, 8, order);
    store(to + 24, 0, 8, order);
}

static void put_descriptor(uint8_t *to, const struct recorder_part *part, uint8_t health, enum order order)
{
    store(to, 0, 4, order);
    store(to + 4, part->id, 4, order);
    store(to + 8, 0, 4, order);
    to[12] = 0;
    to[13] = 0;
    to[14] = part->kind;
    to[15] = health;
    store(to + 16, part->unreported ? ~0ull : part->blocks, 8, order);
    store(to + 24, 0, 8, order);
}

// The lent buffer is filled in ascending order, each byte stored a single time (request 2026-06). What the compiler would turn into a call of
// memset or memcpy, which may store a byte twice, is stored through a volatile pointer.
typedef uint64_t word __attribute__((aligned(1), may_alias));
typedef uint64_t two_words __attribute__((vector_size(16), aligned(1), may_alias));

static void put_zeros(uint8_t *to, const uint8_t *end)
{
    for (; to < end; to += 32) {
        ((volatile two_words *)to)[0] = (two_words){0};
        ((volatile two_words *)to)[1] = (two_words){0};
    }
}

// The first bytes of a row, fewer than 32.
static void put_front(uint8_t *to, const uint8_t *row, size_t size)
{
    for (; size >= 8; size -= 8, to += 8, row += 8)
        *(volatile word *)to = *(const word *)row;
    for (; size > 0; size--)
        *(volatile uint8_t *)to++ = *row++;
}

// Puts down the places of the elements that are asked for, and answers how many they are.
static size_t find_asked(const struct recorder_device *d, struct recorder_query query, uint8_t *places)
{
    size_t number = 0, count = count_of(d);
    for (size_t i = 0; i < count; i++) {
        places[number] = i;
        number += does_ask(query, &d->parts[i], d->healths[i]);
    }
    return number;
}

static size_t smaller(size_t a, size_t b)
{
    return a < b ? a : b;
}

// It runs in every security state (000, table 12).
uint8_t plain_show(const struct recorder_device *d, uint8_t security, struct recorder_request request, uint8_t *buf, size_t size)
{
    uint8_t places[MOST];
    size_t length = 512 * (size_t)request.count;
    (void)security;
    if (is_refused(request))
        return 4;
    if (size < length)
        return 7;
    size_t number = find_asked(d, query_of(request), places), returned = smaller(number, length / 32 - 1);
    put_header(buf, d, number, returned, LITTLE);
    for (size_t k = 0; k < returned; k++)
        put_descriptor(buf + 32 + 32 * k, &d->parts[places[k]], d->healths[places[k]], LITTLE);
    put_zeros(buf + 32 + 32 * returned, buf + length);
    return 0;
}

// ---- The same for a SCSI host (request 2026-03)

static size_t number_asked(const struct recorder_device *d, struct recorder_query query)
{
    size_t number = 0, count = count_of(d);
    for (size_t i = 0; i < count; i++)
        number += does_ask(query, &d->parts[i], d->healths[i]);
    return number;
}

struct recorder_written plain_send(const struct recorder_device *d, struct recorder_query query, uint32_t allocation, uint8_t *buf,
                                   size_t size)
{
    uint8_t row[32];
    if (is_refused_query(query))
        return (struct recorder_written){0, 4};
    size_t number = number_asked(d, query), length = smaller(allocation, 32 + 32 * number);
    if (size < length)
        return (struct recorder_written){0, 7};
    if (length >= 32)
        put_header(buf, d, number, number, BIG);
    else {
        put_header(row, d, number, number, BIG);
        put_front(buf, row, length);
    }
    for (size_t i = 0, at = 32; at < length; i++) {
        if (!does_ask(query, &d->parts[i], d->healths[i]))
            continue;
        if (length - at >= 32)
            put_descriptor(buf + at, &d->parts[i], d->healths[i], BIG);
        else {
            put_descriptor(row, &d->parts[i], d->healths[i], BIG);
            put_front(buf + at, row, length - at);
        }
        at += 32;
    }
    return (struct recorder_written){length, 0};
}

// ---- The other commands

// Open during a removal (002): the code, and masks for what FEATURE and LBA have to be.
static const struct {
    uint8_t code, feature_mask, feature;
    uint32_t lba_mask, lba;
} open_codes[] = {
    {0xEC, 0, 0, 0, 0},
    {0xE1, 0xFF, 0x44, 0xFFFFFFF, 0x0554E4C},
    {0x2F, 0, 0, 0xFF, 0x04},
    {0x47, 0, 0, 0xFF, 0x04},
    {0x2F, 0, 0, 0xFF, 0x10},
    {0x47, 0, 0, 0xFF, 0x10},
    {0x2F, 0, 0, 0xFF, 0x30},
    {0x47, 0, 0, 0xFF, 0x30},
    {0x2F, 0, 0, 0xFF, 0xE0},
    {0x47, 0, 0, 0xFF, 0xE0},
    {0x0B, 0, 0, 0, 0},
    {0xF2, 0, 0, 0, 0},
    {0xEF, 0xFF, 0x07, 0, 0},
    {0xB0, 0xFF, 0xD5, 0xFF, 0x30},
    {0xB0, 0xFF, 0xD5, 0xFF, 0xE0},
    {0xB0, 0xFF, 0xDA, 0, 0},
};

static int is_open(uint8_t code, uint16_t feature, uint64_t lba)
{
    for (size_t i = 0; i < sizeof open_codes / sizeof *open_codes; i++)
        if (open_codes[i].code == code && (feature & open_codes[i].feature_mask) == open_codes[i].feature &&
            (lba & open_codes[i].lba_mask) == open_codes[i].lba)
            return 1;
    return 0;
}

static int is_media(uint8_t code)
{
    return code == 0x24 || code == 0x25 || code == 0x34 || code == 0x35 || code == 0x42;
}

static int is_named(uint8_t code)
{
    return code == 0xEC || code == 0xE1 || code == 0x2F || code == 0x47 || code == 0x0B || code == 0xF2 || code == 0xEF || code == 0xB0;
}

static uint8_t other_answer(const struct recorder_device *d, uint8_t code, uint16_t feature, uint16_t count, uint64_t lba)
{
    if (d->note_full && !is_open(code, feature, lba))
        return 2;
    if (!is_media(code))
        return is_named(code) ? 0 : 6;
    if (d->failed)
        return 3;
    uint64_t last = (lba & LBA_BITS) + (count ? count : 65536) - 1;
    return last > d->accessible ? 5 : 0;
}

// ---- The front call

uint8_t plain_command(struct recorder_device *d, uint8_t security, uint8_t code, uint16_t feature, uint16_t count, uint64_t lba,
                      uint8_t *buf, size_t size)
{
    if (code == 0x7C)
        return plain_remove(d, security, feature, count, lba);
    if (code == 0x12)
        return plain_show(d, security, (struct recorder_request){feature, count, lba}, buf, size);
    return other_answer(d, code, feature, count, lba);
}
