// Records that no call leaves: any bytes are a device, and the calls go on from there.
#ifndef JUNK_H
#define JUNK_H
#include "sides.h"

static void draw_bytes(uint8_t *to, size_t size)
{
    for (; size > 0; to++, size--)
        *to = draw();
}

// A number in a byte's or a flag's place.
static uint8_t draw_flag(void) { return one_in(2) ? below(3) : below(256); }

// How many elements of a record count.
static uint32_t counted(void) { return smaller(ours.device.count, 128); }

// An identifier of the table, one beside it, or any.
static uint32_t draw_id(void)
{
    if (counted() == 0 || one_in(16))
        return wild();
    uint32_t id = ours.device.parts[below(counted())].id;
    return one_in(8) ? near(id) : id;
}

static void junk_part(void)
{
    uint32_t at = below(one_in(8) ? 128 : counted() + 1) % 128;
    struct recorder_part *part = &ours.device.parts[at], *other = &ours.device.parts[below(128)];
    struct recorder_part kept = *part;
    switch (below(7)) {
    case 0:
        *part = *other;
        *other = kept;
        break;
    case 1:
        part->id = wild();
        break;
    case 2:
        part->id = draw_id();
        break;
    case 3:
        part->kind = draw_flag();
        break;
    case 4:
        part->unreported = draw_flag();
        break;
    case 5:
        part->spare = draw();
        break;
    default:
        part->blocks = wild();
    }
}

static void junk_note(void)
{
    struct recorder_device *d = &ours.device;
    switch (below(4)) {
    case 0:
        d->note_full = draw_flag();
        break;
    case 1:
        d->note_element = draw_id();
        break;
    case 2:
        d->note_old = wild();
        break;
    default:
        d->note_new = wild();
    }
}

static void junk_health(void)
{
    uint8_t *health = &ours.device.healths[below(one_in(8) ? 128 : counted() + 1) % 128];
    *health = one_in(2) ? 0xFF : below(256);
}

static void junk_field(void)
{
    struct recorder_device *d = &ours.device;
    switch (below(11)) {
    case 0:
    case 1:
        junk_part();
        break;
    case 2:
    case 3:
        junk_note();
        break;
    case 4:
        d->position = one_in(2) ? below(12) : wild();
        break;
    case 5:
        d->failed = draw_flag();
        break;
    case 6:
        d->count = one_in(2) ? ONE_OF(0, 1, 127, 128, 129, 256, 0xFFFFFFFF) : wild();
        break;
    case 7:
        junk_health();
        break;
    case 8:
        d->limit = one_in(2) ? below(130) : wild();
        break;
    case 9:
        d->native = wild();
        break;
    default:
        d->accessible = wild();
    }
}

// The whole record, a few fields, or a bit.
static void junk(void)
{
    uint8_t *bytes = (uint8_t *)&ours.device, *byte = bytes + below(sizeof ours.device);
    reach.junk++;
    is_junk = 1;
    if (one_in(8))
        draw_bytes(bytes, sizeof ours.device);
    else if (one_in(8))
        *byte ^= 1 << below(8);
    else
        for (int fields = 1 + below(3); fields > 0; fields--)
            junk_field();
    theirs.device = ours.device;
    if (is_traced)
        printf("(junk)\n");
}

#endif
