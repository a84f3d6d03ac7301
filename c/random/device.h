// The calls of the device, on registers that make sense mostly, and on any.
#ifndef DEVICE_H
#define DEVICE_H
#include "junk.h"
#include "kept.h"
#include "table.h"

// ---- The registers

struct registers {
    uint8_t security, code;
    uint16_t feature, count;
    uint64_t lba;
    size_t size;
};

static uint8_t draw_security(void) { return one_in(8) ? below(256) : ONE_OF(RECORDER_LOCKED, RECORDER_UNLOCKED, RECORDER_FROZEN); }

// Bits of LBA that no command looks at.
static uint64_t with_high_bits(uint64_t lba) { return one_in(8) ? lba | draw() << 48 : lba; }

// What the removal of an element leaves, as the table has it.
static uint64_t difference_of(uint32_t id)
{
    for (uint32_t i = 0; i < counted(); i++)
        if (ours.device.parts[i].id == id)
            return ours.device.native - ours.device.parts[i].blocks;
    return ours.device.native;
}

static uint64_t draw_new_maximum(uint32_t id)
{
    switch (below(8)) {
    case 0:
        return near(difference_of(id));
    case 1:
        return wild();
    case 2:
    case 3:
        return below(difference_of(id));
    default:
        return 0;
    }
}

static struct registers draw_removal(void)
{
    struct registers r = {.code = 0x7C};
    uint32_t id = draw_id();
    r.security = one_in(16) ? draw_security() : ONE_OF(RECORDER_UNLOCKED, RECORDER_FROZEN);
    r.feature = id >> 16;
    r.count = id;
    r.lba = with_high_bits(draw_new_maximum(id));
    r.size = below(64);
    return r;
}

static uint16_t draw_pages(void)
{
    if (one_in(4))
        return 1 + counted() / 16;
    return one_in(8) ? (one_in(2) ? below(12) : wild()) : 1;
}

// What a kept page has answered: two pages of one request can be compared.
static void ask_again(struct registers *r)
{
    struct recorder_request request = kept[below(2)].request;
    r->feature = request.feature;
    r->count = request.count;
    r->lba = request.lba;
}

static struct registers draw_status(void)
{
    struct registers r = {.code = 0x12, .security = draw_security()};
    r.feature = ONE_OF(0, 0, 0x4000, 0x0100, 0x4100);
    if (one_in(8))
        r.feature = one_in(2) ? r.feature ^ 1u << below(16) : wild();
    r.count = draw_pages();
    r.lba = one_in(2) ? 0 : draw_id();
    if (one_in(16))
        r.lba ^= 1ull << below(64);
    r.lba = with_high_bits(r.lba);
    if (one_in(4))
        ask_again(&r);
    r.size = 512 * (size_t)r.count;
    if (one_in(4))
        r.size = one_in(2) ? near(r.size) : below(6000);
    return r;
}

static struct registers draw_media(void)
{
    struct registers r = {.code = ONE_OF(0x24, 0x25, 0x34, 0x35, 0x42)};
    uint64_t sectors;
    r.count = one_in(2) ? below(4) : wild();
    sectors = r.count ? r.count : 65536;
    r.lba = one_in(4) ? wild() : near(ours.device.accessible + 1 - sectors);
    r.lba = with_high_bits(r.lba);
    return r;
}

// The forms that are open during a removal, as they are or with a bit changed.
static struct registers draw_other(void)
{
    static const struct registers forms[] = {
        {.code = 0xEC},
        {.code = 0x0B},
        {.code = 0xF2},
        {.code = 0xE1, .feature = 0x44, .lba = 0x0554E4C},
        {.code = 0x2F, .lba = 0x04},
        {.code = 0x2F, .lba = 0xE0},
        {.code = 0x47, .lba = 0x10},
        {.code = 0x47, .lba = 0x30},
        {.code = 0xEF, .feature = 0x07},
        {.code = 0xB0, .feature = 0xD5, .lba = 0x30},
        {.code = 0xB0, .feature = 0xD5, .lba = 0xE0},
        {.code = 0xB0, .feature = 0xDA},
    };
    struct registers r = forms[below(sizeof forms / sizeof *forms)];
    if (one_in(8))
        r.code = ONE_OF(0x2F, 0x47, 0xB0, 0xE1, 0xEF);
    if (one_in(4))
        r.feature ^= 1 << below(16);
    if (one_in(4))
        r.lba ^= 1ull << below(48);
    r.lba = with_high_bits(r.lba);
    r.count = wild();
    return r;
}

static struct registers draw_wild(void)
{
    struct registers r = {.code = draw()};
    r.security = draw();
    r.feature = wild();
    r.count = wild();
    r.lba = wild();
    r.size = below(2000);
    return r;
}

// ---- The front call

static enum kind kind_of(uint8_t code) { return code == 0x7C ? REMOVE : code == 0x12 ? STATUS : OTHER; }

static void call_with(struct registers r)
{
    int was_full = ours.device.note_full;
    lend(r.size);
    ask((struct asked){"command", "security code feature count lba size", {r.security, r.code, r.feature, r.count, r.lba, lent.size}});
    uint8_t our = recorder_command(&ours.device, r.security, r.code, r.feature, r.count, r.lba, our_buf(), lent.size);
    uint8_t their = plain_command(&theirs.device, r.security, r.code, r.feature, r.count, r.lba, their_buf(), lent.size);
    settle_answer(kind_of(r.code), our, their);
    compare_out();
    reach.accepted += !was_full && ours.device.note_full;
    if (r.code == 0x12 && our == 0)
        keep_page((struct recorder_request){r.feature, r.count, r.lba}, 512 * (size_t)r.count);
}

static void call_remove(void) { call_with(draw_removal()); }
static void call_status(void) { call_with(draw_status()); }
static void call_media(void) { call_with(draw_media()); }
static void call_other(void) { call_with(draw_other()); }
static void call_wild(void) { call_with(draw_wild()); }

// ---- The events

// While a removal is under way: the event, 0 to 2, and the next step.
static void count_position(int event)
{
    if (ours.device.note_full)
        reach.positions[event][smaller(ours.device.position, POSITIONS - 1)]++;
}

static void call_step(void)
{
    count_position(0);
    ask((struct asked){"step", "", {0}});
    uint8_t our = recorder_step(&ours.device);
    settle_answer(STEP, our, plain_step(&theirs.device));
}

static void call_media_error(void)
{
    count_position(1);
    ask((struct asked){"media_error", "", {0}});
    uint8_t our = recorder_media_error(&ours.device);
    settle_answer(MEDIA_ERROR, our, plain_media_error(&theirs.device));
}

static void call_power_cut(void)
{
    count_position(2);
    ask((struct asked){"power_cut", "", {0}});
    uint8_t our = recorder_power_cut(&ours.device);
    settle_answer(POWER_CUT, our, plain_power_cut(&theirs.device));
}

static void call_comreset(void)
{
    ask((struct asked){"comreset", "", {0}});
    uint8_t our = recorder_comreset(&ours.device);
    settle_answer(COMRESET, our, plain_comreset(&theirs.device));
}

static void call_hardware_reset(void)
{
    ask((struct asked){"hardware_reset", "", {0}});
    uint8_t our = recorder_hardware_reset(&ours.device);
    settle_answer(HARDWARE_RESET, our, plain_hardware_reset(&theirs.device));
}

static void call_software_reset(void)
{
    ask((struct asked){"software_reset", "", {0}});
    uint8_t our = recorder_software_reset(&ours.device);
    settle_answer(SOFTWARE_RESET, our, plain_software_reset(&theirs.device));
}

static void call_grade(void)
{
    uint32_t id = draw_id();
    uint8_t health = one_in(4) ? ONE_OF(0xCF, 0xD0, 0xFE, 0xFF) : draw_health();
    ask((struct asked){"grade", "id health", {id, health}});
    uint8_t our = recorder_grade(&ours.device, id, health);
    settle_answer(GRADE, our, plain_grade(&theirs.device, id, health));
}

// ---- Status pages, SCSI data and senses

static void call_show(void)
{
    struct registers r = draw_status();
    struct recorder_request request = {r.feature, r.count, r.lba};
    lend(r.size);
    ask((struct asked){"show", "security feature count lba size", {r.security, r.feature, r.count, r.lba, lent.size}});
    uint8_t our = recorder_show(&ours.device, r.security, request, our_buf(), lent.size);
    settle_answer(SHOW, our, plain_show(&theirs.device, r.security, request, their_buf(), lent.size));
    compare_out();
    if (our == 0)
        keep_page(request, 512 * (size_t)r.count);
}

static struct recorder_query draw_query(void)
{
    struct recorder_query query;
    query.filter = one_in(16) ? below(256) : below(2);
    query.report = one_in(16) ? below(256) : below(2);
    query.start = one_in(2) ? 0 : draw_id();
    return query;
}

static uint32_t draw_allocation(void)
{
    if (one_in(4))
        return below(100);
    return one_in(4) ? wild() : 32 + 32 * counted();
}

static void call_send(void)
{
    struct recorder_query query = draw_query();
    uint32_t allocation = draw_allocation();
    size_t most = smaller(allocation, 32 + 32 * counted());
    lend(one_in(4) ? below(most + 40) : most + below(100));
    ask((struct asked){"send", "filter report start allocation size", {query.filter, query.report, query.start, allocation, lent.size}});
    struct recorder_written our = recorder_send(&ours.device, query, allocation, our_buf(), lent.size);
    struct recorder_written their = plain_send(&theirs.device, query, allocation, their_buf(), lent.size);
    same("count", our.count, their.count);
    settle_answer(SEND, our.answer, their.answer);
    compare_out();
    if (our.answer == 0)
        keep_data(query, our.count);
}

static void call_sense(void)
{
    uint8_t number = one_in(2) ? below(12) : below(256);
    ask((struct asked){"sense", "number", {number}});
    struct recorder_sense our = recorder_sense(number), their = plain_sense(number);
    same("there", our.there, their.there);
    same("key", our.key, their.key);
    same("asc", our.asc, their.asc);
    same("ascq", our.ascq, their.ascq);
    settle_found(SENSE, our.there);
}

#endif
