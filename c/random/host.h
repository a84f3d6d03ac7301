// The calls of the host, on the kept pages: as answers to their requests mostly, and to any.
#ifndef HOST_H
#define HOST_H
#include "kept.h"

// ---- What is asked of which page

// A page of the kind that a call reads, mostly.
static int pick_kept(int is_data)
{
    int which = below(2);
    if (kept[which].is_data != is_data && !one_in(8))
        return !which;
    return which;
}

static struct recorder_request draw_request(int which)
{
    struct recorder_request request = kept[which].request;
    if (!one_in(8))
        return request;
    switch (below(4)) {
    case 0:
        request.feature ^= 1 << below(16);
        break;
    case 1:
        request.lba ^= 1ull << below(64);
        break;
    case 2:
        request.count = near(request.count);
        break;
    default:
        request.lba = wild();
    }
    return request;
}

static struct recorder_query draw_host_query(int which)
{
    struct recorder_query query = query_of(draw_request(which));
    if (one_in(32))
        query.filter = below(256);
    if (one_in(32))
        query.report = below(256);
    return query;
}

// A number of a descriptor: one that is there, mostly.
static uint32_t draw_number(int which)
{
    return one_in(16) ? wild() : below(kept[which].size / 32 + 2);
}

static const uint8_t *our_page(int which) { return ours.pages[which].bytes + kept[which].at; }
static const uint8_t *their_page(int which) { return theirs.pages[which].bytes + kept[which].at; }

static void compare_page(int which)
{
    compare_lent("the page", &ours.pages[which], &theirs.pages[which], kept[which].at, kept[which].size);
}

// ---- The readers

static void same_readings(struct recorder_reading our, struct recorder_reading their)
{
    same("place", our.place, their.place);
    same("number", our.header.number, their.header.number);
    same("returned", our.header.returned, their.header.returned);
    same("busy", our.header.busy, their.header.busy);
    same("limit", our.header.limit, their.header.limit);
    same("removed", our.header.removed, their.header.removed);
    same("whole", our.whole, their.whole);
    same("torn", our.torn, their.torn);
}

static void call_read(void)
{
    int which = pick_kept(0);
    struct recorder_request r = draw_request(which);
    ask((struct asked){"read", "page size feature count lba", {which, kept[which].size, r.feature, r.count, r.lba}});
    struct recorder_reading our = recorder_read(our_page(which), kept[which].size, r);
    struct recorder_reading their = plain_read(their_page(which), kept[which].size, r);
    same_readings(our, their);
    settle_answer(READ, our.answer, their.answer);
    compare_page(which);
}

static void call_scsi_read(void)
{
    int which = pick_kept(1);
    struct recorder_query q = draw_host_query(which);
    ask((struct asked){"scsi_read", "page size filter report start", {which, kept[which].size, q.filter, q.report, q.start}});
    struct recorder_reading our = recorder_scsi_read(our_page(which), kept[which].size, q);
    struct recorder_reading their = plain_scsi_read(their_page(which), kept[which].size, q);
    same_readings(our, their);
    settle_answer(SCSI_READ, our.answer, their.answer);
    compare_page(which);
}

static void same_slots(struct recorder_slot our, struct recorder_slot their)
{
    same("id", our.descriptor.id, their.descriptor.id);
    same("restorable", our.descriptor.restorable, their.descriptor.restorable);
    same("kind", our.descriptor.kind, their.descriptor.kind);
    same("health", our.descriptor.health, their.descriptor.health);
    same("capacity", our.descriptor.capacity, their.descriptor.capacity);
    same("there", our.there, their.there);
}

static void call_descriptor(void)
{
    int which = pick_kept(0);
    uint32_t k = draw_number(which);
    ask((struct asked){"descriptor", "page size k", {which, kept[which].size, k}});
    struct recorder_slot our = recorder_descriptor(our_page(which), kept[which].size, k);
    same_slots(our, plain_descriptor(their_page(which), kept[which].size, k));
    settle_found(DESCRIPTOR, our.there);
    compare_page(which);
}

static void call_scsi_descriptor(void)
{
    int which = pick_kept(1);
    uint32_t k = draw_number(which);
    ask((struct asked){"scsi_descriptor", "page size k", {which, kept[which].size, k}});
    struct recorder_slot our = recorder_scsi_descriptor(our_page(which), kept[which].size, k);
    same_slots(our, plain_scsi_descriptor(their_page(which), kept[which].size, k));
    settle_found(SCSI_DESCRIPTOR, our.there);
    compare_page(which);
}

// ---- The listings

// Of a kept page into a buffer of this size: how many bytes were written.
static size_t list_kept(int which, size_t room)
{
    size_t size = kept[which].size;
    lend(room);
    ask((struct asked){"list", "page size room", {which, size, lent.size}});
    struct recorder_written our = recorder_list(our_page(which), size, our_buf(), lent.size);
    struct recorder_written their = plain_list(their_page(which), size, their_buf(), lent.size);
    same("count", our.count, their.count);
    settle_answer(LIST, our.answer, their.answer);
    compare_out();
    compare_page(which);
    return our.count;
}

static size_t scsi_list_kept(int which, size_t room)
{
    size_t size = kept[which].size;
    lend(room);
    ask((struct asked){"scsi_list", "page size room", {which, size, lent.size}});
    struct recorder_written our = recorder_scsi_list(our_page(which), size, our_buf(), lent.size);
    struct recorder_written their = plain_scsi_list(their_page(which), size, their_buf(), lent.size);
    same("count", our.count, their.count);
    settle_answer(SCSI_LIST, our.answer, their.answer);
    compare_out();
    compare_page(which);
    return our.count;
}

// Room for every text of a page of this size, or for less.
static size_t draw_text_room(size_t size)
{
    size_t all = 150 + 37 * (size / 32);
    return one_in(4) ? below(all) : all;
}

// Then once more, with just enough room or just too little.
static void call_list(void)
{
    int which = pick_kept(0);
    size_t count = list_kept(which, draw_text_room(kept[which].size));
    if (count > 0)
        list_kept(which, count - below(2));
}

static void call_scsi_list(void)
{
    int which = pick_kept(1);
    size_t count = scsi_list_kept(which, draw_text_room(kept[which].size));
    if (count > 0)
        scsi_list_kept(which, count - below(2));
}

// ---- The conversions

static size_t draw_room(size_t size)
{
    switch (below(4)) {
    case 0:
        return near(size);
    case 1:
        return below(size + 1);
    default:
        return size + 32;
    }
}

static void same_conversions(struct recorder_converted our, struct recorder_converted their)
{
    same("count", our.count, their.count);
    same("place", our.place, their.place);
}

static void call_to_scsi(void)
{
    int which = pick_kept(0);
    size_t size = kept[which].size;
    struct recorder_request r = draw_request(which);
    lend(draw_room(32 + 32 * load(our_page(which), 2, LITTLE)));
    ask((struct asked){"to_scsi", "page size feature count lba room", {which, size, r.feature, r.count, r.lba, lent.size}});
    struct recorder_converted our = recorder_to_scsi(our_page(which), size, r, our_buf(), lent.size);
    struct recorder_converted their = plain_to_scsi(their_page(which), size, r, their_buf(), lent.size);
    same_conversions(our, their);
    settle_answer(TO_SCSI, our.answer, their.answer);
    compare_out();
    compare_page(which);
    if (our.answer == 0)
        keep_data(query_of(r), our.count);
}

static uint16_t draw_host_pages(size_t size)
{
    uint16_t pages = (size + 511) / 512;
    return one_in(8) ? (one_in(2) ? near(pages) : wild()) : pages;
}

static void call_to_ata(void)
{
    int which = pick_kept(1);
    size_t size = kept[which].size;
    struct recorder_query q = draw_host_query(which);
    uint16_t pages = draw_host_pages(size);
    lend(draw_room(512 * (size_t)pages));
    ask((struct asked){"to_ata", "page size filter report start pages room", {which, size, q.filter, q.report, q.start, pages, lent.size}});
    struct recorder_converted our = recorder_to_ata(our_page(which), size, q, pages, our_buf(), lent.size);
    struct recorder_converted their = plain_to_ata(their_page(which), size, q, pages, their_buf(), lent.size);
    same_conversions(our, their);
    settle_answer(TO_ATA, our.answer, their.answer);
    compare_out();
    compare_page(which);
    if (our.answer == 0)
        keep_page(request_of(q, pages), our.count);
}

// ---- The walk

static void call_next(void)
{
    int which = pick_kept(0);
    struct recorder_request r = draw_request(which);
    ask((struct asked){"next", "page size feature count lba", {which, kept[which].size, r.feature, r.count, r.lba}});
    struct recorder_move our = recorder_next(our_page(which), kept[which].size, r);
    struct recorder_move their = plain_next(their_page(which), kept[which].size, r);
    same("place", our.place, their.place);
    same("start", our.start, their.start);
    same("asks", our.asks, their.asks);
    settle_answer(NEXT, our.answer, their.answer);
    compare_page(which);
}

static void call_next_request(void)
{
    struct recorder_request r = draw_request(below(2));
    uint32_t start = wild();
    uint16_t pages = wild();
    ask((struct asked){"next_request", "feature count lba start pages", {r.feature, r.count, r.lba, start, pages}});
    struct recorder_request our = recorder_next_request(r, start, pages), their = plain_next_request(r, start, pages);
    same("feature", our.feature, their.feature);
    same("count", our.count, their.count);
    same("lba", our.lba, their.lba);
    settle_found(NEXT_REQUEST, 1);
}

// ---- The comparison

static void compare_pages(void)
{
    compare_page(0);
    compare_page(1);
}

static void call_open(void)
{
    struct recorder_request r = draw_request(below(2));
    ask((struct asked){"open", "older newer feature count lba", {kept[0].size, kept[1].size, r.feature, r.count, r.lba}});
    struct recorder_opening our = recorder_open(our_page(0), kept[0].size, our_page(1), kept[1].size, r);
    struct recorder_opening their = plain_open(their_page(0), kept[0].size, their_page(1), kept[1].size, r);
    same("end", our.end, their.end);
    same("cut", our.cut, their.cut);
    same("turn", our.turn, their.turn);
    settle_answer(OPEN, our.answer, their.answer);
    compare_pages();
}

static void find_span(struct recorder_difference d)
{
    ask((struct asked){"span", "older newer at.older at.newer next.older next.newer kind",
                       {kept[0].size, kept[1].size, d.at.older, d.at.newer, d.next.older, d.next.newer, d.kind}});
    struct recorder_span our = recorder_span(our_page(0), kept[0].size, our_page(1), kept[1].size, d);
    struct recorder_span their = plain_span(their_page(0), kept[0].size, their_page(1), kept[1].size, d);
    same("place", our.place, their.place);
    same("length", our.length, their.length);
    same("turn", our.turn, their.turn);
    settle_found(SPAN, our.length > 0);
    compare_pages();
}

static struct recorder_difference find_difference(struct recorder_cursor from)
{
    ask((struct asked){"next_difference", "older newer from.older from.newer", {kept[0].size, kept[1].size, from.older, from.newer}});
    struct recorder_difference our = recorder_next_difference(our_page(0), kept[0].size, our_page(1), kept[1].size, from);
    struct recorder_difference their = plain_next_difference(their_page(0), kept[0].size, their_page(1), kept[1].size, from);
    same("kind", our.kind, their.kind);
    same("at.older", our.at.older, their.at.older);
    same("at.newer", our.at.newer, their.at.newer);
    same("next.older", our.next.older, their.next.older);
    same("next.newer", our.next.newer, their.next.newer);
    settle_found(NEXT_DIFFERENCE, our.kind != RECORDER_NO_MORE);
    compare_pages();
    return our;
}

// A page whose header says that it has millions of descriptors is walked to its end, which takes its time: such pages are left out here.
static int is_short(int which) { return kept[which].size >= 8 && load(our_page(which) + 4, 4, LITTLE) < 4096; }

// The first few differences, each with its span; from the start, or from anywhere.
static void call_differences(void)
{
    struct recorder_difference found = {.kind = RECORDER_CHANGED};
    if (!is_short(0) || !is_short(1))
        return;
    if (one_in(4))
        found.next.older = draw_number(0);
    if (one_in(4))
        found.next.newer = draw_number(1);
    for (int left = 1 + below(4); left > 0 && found.kind != RECORDER_NO_MORE; left--) {
        found = find_difference(found.next);
        if (one_in(2))
            find_span(found);
    }
}

// A difference that no comparison has found.
static void call_span(void)
{
    struct recorder_difference d;
    d.at.older = draw_number(0);
    d.at.newer = draw_number(1);
    d.next.older = draw_number(0);
    d.next.newer = draw_number(1);
    d.kind = one_in(4) ? below(256) : below(4);
    find_span(d);
}

#endif
