// Makes the library's calls that fill a lent buffer, each followed by a write of the memory that `judge` watches: on a device of so many
// elements, 2 to 128, pages of every count from 1 to 9 with every list from empty to full, some of them filtered, SCSI data whole and cut, and
// refusals; before, during and after a removal, in each security state.
// usage: calls ELEMENTS [lines | SLIP]
//
// `lines` says, for `judge`, what each call is to store. A SLIP is a wrong store that is made with each call, on purpose.
// Exit status: 0, or 2 trouble, an answer other than document 01's among it.
#include "../c/recorder.h"
#include "../c/text.h"
#include <stdio.h>
#include <stdlib.h>
#include <string.h>
#include <unistd.h>

enum { MOST = 128, PLACES = 17, GUARD = 64, ROOM = 9 * 512 + 64 };

enum { ALL = 0, STORAGE = 0x0100, SLOW = 0x4000 }; // FEATURE: every element, storage elements alone, slow ones alone.
enum { STATES = 3 };                               // Status is told in every security state.

static struct recorder_element table[MOST];
static size_t elements;
static struct recorder_device device;
static uint8_t state; // The security state of the next call.
static _Alignas(64) uint8_t memory[GUARD + PLACES + ROOM + GUARD];
static uint8_t elsewhere[ROOM];

static _Noreturn void trouble(const char *words)
{
    dprintf(2, "calls: %s\n", words);
    exit(2);
}

// ---- What is called

enum call { SHOW, COMMAND, SEND };

static const char *const names[] = {"show", "command", "send"};

// Of SEND, FEATURE holds the filter and the report type where a request for pages does.
struct asked {
    enum call call;
    uint8_t answer;
    uint16_t feature, pages;
    uint64_t start;
    uint32_t allocation;
};

static int does_ask(const struct asked *a, const struct recorder_element *e)
{
    return (!(a->feature & STORAGE) || e->kind == 1) && (!(a->feature & SLOW) || (e->health >= 0x65 && e->health <= 0xCF) || e->health == 0xFF);
}

// What it writes if it is not refused: 512 bytes a page, and of SCSI data as much of header and descriptors as the allocation takes.
static size_t length_of(const struct asked *a)
{
    size_t whole = 32;
    if (a->call != SEND)
        return 512 * a->pages;
    for (size_t i = elements; i > 0 && table[i - 1].id >= a->start; i--)
        whole += does_ask(a, &table[i - 1]) ? 32 : 0;
    return a->allocation < whole ? a->allocation : whole;
}

static struct recorder_written ask(const struct asked *a, uint8_t *lent, size_t room)
{
    struct recorder_request request = {a->feature, a->pages, a->start};
    struct recorder_query query = {a->feature >> 14, a->feature >> 8 & 15, a->start};
    struct recorder_written w = {a->pages * 512, 0};
    switch (a->call) {
    case SHOW:
        w.answer = recorder_show(&device, state, request, lent, room);
        break;
    case COMMAND:
        w.answer = recorder_command(&device, state, 0x12, a->feature, a->pages, a->start, lent, room);
        break;
    default:
        w = recorder_send(&device, query, a->allocation, lent, room);
    }
    return w;
}

// ---- The slips

enum slip { NONE, AGAIN, LATE, PAST, BEFORE, REFUSED, SLIPS };

static const char *const slips[SLIPS] = {"", "again", "late", "past", "before", "refused"};
static enum slip slip;

static void store(volatile uint8_t *to, const uint8_t *from, size_t size)
{
    for (size_t i = 0; i < size; i++)
        to[i] = from[i];
}


static void make_slip(uint8_t *lent, size_t stored, int is_refused)
{
    if (slip == AGAIN && stored > 0)
        store(lent, lent, 1);
    if (slip == BEFORE)
        store(lent - 1, elsewhere, 1);
    if (slip == PAST && !is_refused)
        store(lent + stored, elsewhere, 1);
    if (slip == REFUSED && is_refused)
        store(lent, elsewhere, 1);
    if (slip == LATE && stored > 0) { // The page stands elsewhere: its first byte comes last.
        store(lent + 1, elsewhere + 1, stored - 1);
        store(lent, elsewhere, 1);
    }
}

// ---- A call

static int is_told; // What is to be stored is said, and nothing called.

static void call(struct asked a)
{
    static size_t calls;
    state = calls / 2 % STATES;
    size_t length = length_of(&a), stored = a.answer == 0 ? length : 0;
    size_t room = a.answer == RECORDER_SMALL_BUFFER ? length - 1 : calls % 3 == 0 ? length : ROOM; // Every third has room for no byte more.
    uint8_t *lent = memory + GUARD + calls++ % PLACES;
    if (is_told) {
        printf("%lu %lu %s state %d pages %d feature %x start %lx allocation %u room %lu answer %d\n", stored, lent - memory, names[a.call],
               state, a.pages, a.feature, a.start, a.allocation, room, a.answer);
        return;
    }
    struct recorder_written w = ask(&a, slip == LATE ? elsewhere : lent, room);
    make_slip(lent, stored, a.answer != 0);
    if (w.answer != a.answer || (w.answer == 0 && w.count != stored))
        trouble("another answer than document 01's");
    write(1, memory, sizeof memory);
}

// ---- The cases

// Those for pages are asked of the front call too.
static const struct asked refusals[] = {
    // Call, answer            FEATURE  pages  start        allocation
    {SHOW, 4,                  0x0000,  0,     0,           0},   // No page.
    {SHOW, 4,                  0x8000,  1,     0,           0},   // Filter 10b and 11b.
    {SHOW, 4,                  0xC000,  9,     0,           0},
    {SHOW, 4,                  0x0200,  1,     0,           0},   // Report types 2 and 15.
    {SHOW, 4,                  0x0F00,  9,     0,           0},
    {SHOW, 4,                  0x1000,  1,     0,           0},   // Reserved bits.
    {SHOW, 4,                  0x0001,  1,     0,           0},
    {SHOW, 4,                  0x0000,  1,     1ull << 32,  0},
    {SHOW, 4,                  0x0000,  9,     1ull << 47,  0},
    {SEND, 4,                  0x8000,  0,     0,           512}, // Filter 10b and 11b.
    {SEND, 4,                  0xC000,  0,     0,           512},
    {SEND, 4,                  0x0200,  0,     0,           512}, // Report type 2.
};

static void call_refused(void)
{
    for (size_t i = 0; i < sizeof refusals / sizeof *refusals; i++) {
        struct asked a = refusals[i];
        call(a);
        if (a.call == SHOW) {
            a.call = COMMAND;
            call(a);
        }
    }
}

// From this identifier on there are so many elements.
static uint32_t start_for(size_t number) { return elements + 1 - number; }

static void call_both(uint8_t answer, uint16_t feature, uint16_t pages, size_t number)
{
    call((struct asked){SHOW, answer, feature, pages, start_for(number), 0});
    call((struct asked){COMMAND, answer, feature, pages, start_for(number), 0});
}

static void call_pages(uint16_t feature, size_t step)
{
    for (uint16_t pages = 1; pages <= 9; pages++) {
        for (size_t number = 0; number <= elements; number += step)
            call_both(0, feature, pages, number);
        call_both(RECORDER_SMALL_BUFFER, feature, pages, elements);
    }
}

static void call_send(uint8_t answer, uint16_t feature, size_t number, uint32_t allocation)
{
    call((struct asked){SEND, answer, feature, 0, start_for(number), allocation});
}

// A short list is cut at every byte, a longer one at one.
static void call_data(uint16_t feature, size_t step)
{
    for (size_t number = 0; number <= elements; number += step) {
        size_t whole = 32 + 32 * number, cut = number <= 3 ? 0 : whole - 1 - 13 * number % 64;
        do
            call_send(0, feature, number, cut);
        while (number <= 3 && ++cut < whole);
        call_send(0, feature, number, whole);
        call_send(0, feature, number, 0xFFFFFFFF);
        call_send(RECORDER_SMALL_BUFFER, feature, number, whole);
    }
}

// ---- The run

static void make(void)
{
    for (size_t i = 0; i < elements; i++) {
        uint8_t kind = i % 5 == 4 ? 2 : 1;
        table[i] = (struct recorder_element){i + 1, kind, i * 37 % 0xD0, i % 7 == 3, 0, kind == 1 ? 2 + i * 123456789 : 0};
    }
    if (recorder_make(&device, table, elements, 3) != 0)
        trouble("no device is made of the table");
}

// The first element.
static void begin_removal(void)
{
    if (recorder_command(&device, RECORDER_UNLOCKED, 0x7C, 0, table[0].id, 0, elsewhere, 0) != 0)
        trouble("the removal is refused");
}

static void end_removal(void)
{
    while (recorder_step(&device) == 0)
        ;
    table[0].health = 0xFF;
}

static int get_words(int count, char **words)
{
    elements = count >= 2 ? decimal(words[1]) : 0;
    is_told = count == 3 && strcmp(words[2], "lines") == 0;
    if (count == 3 && !is_told)
        while (slip < SLIPS && strcmp(words[2], slips[slip]) != 0)
            slip++;
    return count <= 3 && slip < SLIPS && elements >= 2 && elements <= MOST;
}

int main(int count, char **words)
{
    if (!get_words(count, words))
        trouble("usage: calls ELEMENTS [lines | again | late | past | before | refused]");
    make();
    if (is_told)
        printf("area\n");
    else
        write(1, memory, sizeof memory);
    call_refused();
    call_pages(ALL, 1);
    call_data(ALL, 1);
    call_pages(STORAGE, 5);
    call_data(STORAGE, 5);
    begin_removal();
    call_pages(SLOW, 5);
    call_data(SLOW, 5);
    end_removal();
    call_pages(SLOW | STORAGE, 5);
    call_data(SLOW | STORAGE, 5);
    return 0;
}
