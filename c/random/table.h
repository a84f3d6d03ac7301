// Tables that are offered for a new device: good ones mostly, and ones with a slip.
#ifndef TABLE_H
#define TABLE_H
#include "sides.h"

#define MOST_BLOCKS (1ull << 48) // The sum of a table.

static struct {
    size_t count;
    uint16_t limit;
} offer;

// Small devices mostly: a big one costs more time.
static size_t draw_count(void)
{
    if (one_in(16))
        return one_in(4) ? ONE_OF(0, 127, 128, 129, 130, RECORDS) : 1 + below(128);
    return one_in(4) ? 1 + below(40) : 1 + below(6);
}

static uint8_t draw_health(void) { return one_in(2) ? below(0xD0) : ONE_OF(0, 0x64, 0x65, 0xCE, 0xCF); }

// From one identifier to the next: side by side, or far from each other.
static uint32_t draw_gap(uint32_t far) { return one_in(2) ? 1 : 1 + below(far); }

static void draw_records(void)
{
    uint32_t id = 0, far = ONE_OF(2, 100, 40000, 1u << 24), most = ONE_OF(3, 1000, 1000, 1000, 1ull << 31);
    for (size_t i = 0; i < offer.count; i++) {
        struct recorder_element *e = &ours.list[i];
        id += draw_gap(far);
        e->id = id;
        e->kind = one_in(8) ? below(256) : 1;
        e->health = draw_health();
        e->unreported = one_in(4) ? below(256) : 0;
        e->spare = below(256);
        e->blocks = e->kind == 1 ? below(most) : 0;
    }
}

// Of a big sum: the last storage element makes it so big that it just fits, or just does not.
static void fill_sum(void)
{
    uint64_t sum = 0;
    for (size_t i = 1; i < offer.count; i++)
        sum += ours.list[i].blocks;
    ours.list[0].kind = 1;
    ours.list[0].blocks = near(MOST_BLOCKS - sum);
}

static void add_slip(void)
{
    size_t at = below(offer.count);
    struct recorder_element *e = &ours.list[at];
    switch (below(8)) {
    case 0:
        e->id = at ? near(e[-1].id) : 0;
        break;
    case 1:
        e->id = wild();
        break;
    case 2:
        e->health = 0xD0 + below(0x30);
        break;
    case 3:
        e->blocks = wild();
        break;
    case 4:
        e->kind = below(256);
        e->blocks = below(2);
        break;
    case 5:
        fill_sum();
        break;
    case 6:
        offer.limit = ONE_OF(127, 128, 129, 256, 0xFFFF);
        break;
    default:
        offer.limit = wild();
    }
}

static void draw_offer(void)
{
    offer.count = draw_count();
    offer.limit = one_in(3) ? below(offer.count + 1) : ONE_OF(0, 0, 2, 128);
    draw_records();
    if (one_in(4))
        add_slip();
    memcpy(theirs.list, ours.list, sizeof ours.list);
}

static void call_make(void)
{
    draw_offer();
    ask((struct asked){"make", "count limit", {offer.count, offer.limit}});
    uint8_t our = recorder_make(&ours.device, ours.list, offer.count, offer.limit);
    settle_answer(MAKE, our, plain_make(&theirs.device, theirs.list, offer.count, offer.limit));
    same("whether the offered table is as it was", memcmp(ours.list, theirs.list, sizeof ours.list), 0);
    if (our == 0)
        is_junk = 0;
}

#endif
