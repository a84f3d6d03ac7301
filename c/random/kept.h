// The pages and the SCSI data that the host reads: what the device wrote, lists that were made up, and any bytes.
#ifndef KEPT_H
#define KEPT_H
#include "../../speed/order.h"
#include "sides.h"

// The older and the newer page, each in its arena. Of SCSI data the request is the one with the same fields.
static struct kept {
    size_t at, size;
    struct recorder_request request;
    int is_data;
} kept[2];

static uint8_t *kept_bytes(int which) { return ours.pages[which].bytes + kept[which].at; }

// After the library's side was written to.
static void copy_kept(int which)
{
    size_t at = kept[which].at;
    memcpy(theirs.pages[which].bytes + at, ours.pages[which].bytes + at, kept[which].size);
}

static void set_kept(int which, size_t size, struct recorder_request request, int is_data)
{
    size_t at = GUARD + below(16);
    kept[which] = (struct kept){at, smaller(size, ROOM - 16), request, is_data};
}

static struct recorder_request request_of(struct recorder_query query, uint16_t pages)
{
    return (struct recorder_request){(query.filter & 3) << 14 | (query.report & 15) << 8, pages, query.start};
}

static struct recorder_query query_of(struct recorder_request request)
{
    return (struct recorder_query){request.feature >> 14, request.feature >> 8 & 15, request.lba};
}

// ---- What a call has written

static void keep_out(size_t size, struct recorder_request request, int is_data)
{
    int which = below(2);
    set_kept(which, size, request, is_data);
    memcpy(kept_bytes(which), our_buf(), kept[which].size);
    copy_kept(which);
}

static void keep_page(struct recorder_request request, size_t size)
{
    if (one_in(4))
        keep_out(size, request, 0);
}

static void keep_data(struct recorder_query query, size_t size)
{
    if (one_in(4))
        keep_out(size, request_of(query, 1 + size / 512), 1);
}

// ---- Lists that were made up: two that are much the same

struct row {
    uint32_t id;
    uint8_t flag, kind, health;
    uint64_t capacity;
};

static struct row draw_row(uint32_t id, struct recorder_request request)
{
    struct recorder_query query = query_of(request);
    struct row row = {.id = id};
    row.kind = query.report ? 1 : ONE_OF(1, 1, 2, 0xFF);
    row.health = query.filter ? ONE_OF(0x65, 0x70, 0xCF, 0xFF) : ONE_OF(0, 0x64, 0x65, 0xCF, 0xD0, 0xFE, 0xFF);
    row.flag = one_in(row.health == 0xFF ? 2 : 400);
    row.capacity = one_in(8) ? ~0ull : wild();
    return row;
}

// Another row of the same element: all of its values, or one of them.
static void change_row(struct row *row, struct recorder_request request)
{
    if (one_in(2))
        *row = draw_row(row->id, request);
    else if (row->health == 0xFF)
        row->flag ^= 1;
    else
        row->capacity ^= 1ull << below(64);
}

static void put_row(uint8_t *to, struct row row, enum order order)
{
    memset(to, 0, 32);
    store(to + 4, row.id, 4, order);
    to[13] = row.flag;
    to[14] = row.kind;
    to[15] = row.health;
    store(to + 16, row.capacity, 8, order);
}

static void put_heading(uint8_t *to, uint32_t number, uint32_t returned, enum order order)
{
    uint64_t busy = one_in(2) ? 0 : wild();
    memset(to, 0, 32);
    store(to, number, 4, order);
    store(to + 4, returned, 4, order);
    store(to + 8, busy, 4, order);
    store(to + 12, below(130), 2, order);
    store(to + 14, below(130), 2, order);
}

// The older page of a pair has most of the rows, and the newer one much the same.
static void put_lists(size_t *counts, size_t most, enum order order)
{
    struct recorder_request request = kept[0].request;
    uint32_t id = request.lba, far = ONE_OF(1, 1, 3, 1000);
    for (size_t rows = one_in(4) ? 2 * most : 1 + below(most); rows > 0; rows--) {
        id = counts[0] + 1 == most && one_in(8) ? 0xFFFFFFFF : id + 1 + below(far);
        struct row row = draw_row(id, request);
        for (int which = 0; which < 2; which++) {
            if (counts[which] == most || one_in(8))
                continue;
            if (which == 1 && one_in(4))
                change_row(&row, request);
            put_row(kept_bytes(which) + 32 + 32 * counts[which]++, row, order);
        }
    }
}

// Of a full page the header may say that there are more.
static void make_up(void)
{
    enum order order = one_in(2) ? BIG : LITTLE;
    uint16_t pages = one_in(200) ? ONE_OF(9, 60, 127, 128, 129) : 1 + below(3);
    size_t most = 16 * (size_t)pages - 1, counts[2] = {0, 0};
    struct recorder_request request = {ONE_OF(0, 0, 0x4000, 0x0100, 0x4100), pages, 0};
    if (one_in(4))
        request.lba = one_in(4) ? 0xFFFFFFFF - below(40) : below(1000);
    for (int which = 0; which < 2; which++) {
        set_kept(which, 512 * (size_t)pages, request, order == BIG);
        memset(kept_bytes(which), 0, kept[which].size);
    }
    put_lists(counts, one_in(2) ? most : 1 + below(most), order);
    for (int which = 0; which < 2; which++) {
        uint32_t more = order == LITTLE && counts[which] == most && one_in(2) ? below(300) : 0;
        put_heading(kept_bytes(which), counts[which] + more, counts[which] + (order == BIG ? more : 0), order);
        copy_kept(which);
        if (order == BIG)
            kept[which].size = 32 + 32 * counts[which];
    }
}

// ---- Pages with something wrong, and any bytes

// Where a change tells: at the end, in the header's numbers, in a descriptor's, or anywhere.
static size_t draw_place(size_t size)
{
    size_t row = 32 * (size_t)below(size / 32 + 1);
    switch (below(8)) {
    case 0:
        return size - 1;
    case 1:
    case 2:
        return below(8);
    case 3:
    case 4:
        return below(size);
    default:
        return row + ONE_OF(4, 5, 7, 13, 14, 15, 16, 23);
    }
}

static void change_bytes(int which)
{
    for (int bytes = 1 + below(2); bytes > 0; bytes--) {
        size_t place = draw_place(kept[which].size);
        uint8_t byte = one_in(2) ? 1u << below(8) : below(256);
        if (place < kept[which].size)
            kept_bytes(which)[place] ^= byte;
    }
}

static void change_size(int which)
{
    size_t size = kept[which].size, by = ONE_OF(1, 31, 32, 33, 512);
    size = one_in(4) ? below(size + 1) : one_in(2) ? size + by : size - smaller(size, by);
    kept[which].size = smaller(size, ROOM - 16);
}

static void change_kept(void)
{
    int which = below(2);
    if (one_in(3))
        change_size(which);
    else
        change_bytes(which);
    copy_kept(which);
}

static void draw_kept(void)
{
    int which = below(2);
    size_t size = one_in(2) ? 512 * (1 + (size_t)below(2)) : below(700);
    struct recorder_request request = {ONE_OF(0, 0x4000), 1 + size / 512, 0};
    set_kept(which, size, request, below(2));
    for (size_t i = 0; i < kept[which].size; i++)
        kept_bytes(which)[i] = draw();
    copy_kept(which);
}

#endif
