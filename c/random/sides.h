// The two sides: what is lent to the library, and the same for plain C. Before each call they are equal, and after it they have to be.
#ifndef SIDES_H
#define SIDES_H
#include "../../speed/plain.h"
#include "../recorder.h"
#include "draw.h"
#include "reach.h"
#include <stdlib.h>
#include <string.h>

enum { GUARD = 64, ROOM = 81920, RECORDS = 200 };

// A lent buffer is a part of one of these, with bytes on both sides that no call may touch.
struct arena {
    uint8_t bytes[GUARD + ROOM + GUARD];
};

struct side {
    struct recorder_element list[RECORDS]; // The offered table.
    struct recorder_device device;
    struct arena out;      // What a call writes.
    struct arena pages[2]; // What the host reads: the older and the newer.
};

static struct side ours, theirs; // The library's, and plain C's.

// ---- The case, and the words on a difference

struct asked {
    const char *name, *words; // The call, and what its numbers are.
    uint64_t numbers[10];
};

static struct asked asked; // The call that is made.
static uint64_t case_seed, case_calls;
static int is_traced;

static void print_asked(void)
{
    const uint64_t *number = asked.numbers;
    printf("%s", asked.name);
    for (const char *word = asked.words; *word;) {
        int size = 0;
        while (word[size] && word[size] != ' ')
            size++;
        printf(" %.*s %lX", size, word, *number++);
        word += size + (word[size] == ' ');
    }
}

static void end_case(void)
{
    printf("\ncase seed %lu, its call %lu: ", case_seed, case_calls);
    print_asked();
    printf("\ncalls %lu differences 1\n", reach.calls);
    exit(1);
}

// The field of an answer.
static void same(const char *field, uint64_t our, uint64_t their)
{
    if (our == their)
        return;
    printf("difference: %s is %lX of the library, %lX of plain C", field, our, their);
    end_case();
}

#define FIELD(name) {#name, offsetof(struct recorder_device, name)}

static const char *field_at(size_t place)
{
    static const struct {
        const char *name;
        size_t place;
    } fields[] = {FIELD(healths), FIELD(position), FIELD(failed), FIELD(note_full), FIELD(limit), FIELD(count),
                  FIELD(note_element), FIELD(note_new), FIELD(note_old), FIELD(accessible), FIELD(native), FIELD(parts)};
    size_t i = 0;
    while (fields[i].place > place)
        i++;
    return fields[i].name;
}

static void show_difference(const char *what, const uint8_t *our, const uint8_t *their, size_t size, long from)
{
    size_t i = 0;
    while (i < size && our[i] == their[i])
        i++;
    printf("difference: %s at %ld is %02X of the library, %02X of plain C", what, from + (long)i, our[i], their[i]);
    end_case();
}

static void compare_records(void)
{
    const uint8_t *our = (const uint8_t *)&ours.device, *their = (const uint8_t *)&theirs.device;
    size_t place = 0;
    if (memcmp(our, their, sizeof ours.device) == 0)
        return;
    while (our[place] == their[place])
        place++;
    show_difference(field_at(place), our, their, sizeof ours.device, 0);
}

// A part of an arena that was lent, with the bytes around it; its places count from the lent ones.
static void compare_lent(const char *what, const struct arena *our, const struct arena *their, size_t at, size_t size)
{
    const uint8_t *a = our->bytes + at - GUARD, *b = their->bytes + at - GUARD;
    if (memcmp(a, b, size + 2 * GUARD))
        show_difference(what, a, b, size + 2 * GUARD, -GUARD);
}

// All of it, now and then: no call writes further off.
static void compare_whole(void)
{
    if (memcmp(&ours, &theirs, sizeof ours))
        show_difference("what lies far from what was lent", (const uint8_t *)&ours, (const uint8_t *)&theirs, sizeof ours, 0);
}

// ---- The calls

static int is_junk; // The record has been junked since the device was made.

// Before each call.
static void ask(struct asked call)
{
    asked = call;
    case_calls++;
    reach.calls++;
    reach.on_junk += is_junk;
}

// After it, its answer being the same.
static void settle(uint64_t answer)
{
    compare_records();
    if (is_traced) {
        print_asked();
        printf(": %lu\n", answer);
    }
}

static void settle_answer(enum kind kind, uint8_t our, uint8_t their)
{
    same("answer", our, their);
    reach.answers[kind][smaller(our, ANSWERS - 1)]++;
    settle(our);
}

static void settle_found(enum kind kind, int is_found)
{
    reach.found[kind][is_found]++;
    settle(is_found);
}

// ---- The lent buffer

static struct {
    size_t at, size;
} lent;

static void lend(size_t size)
{
    lent.at = GUARD + below(16);
    lent.size = smaller(size, ROOM - 16);
}

static uint8_t *our_buf(void) { return ours.out.bytes + lent.at; }
static uint8_t *their_buf(void) { return theirs.out.bytes + lent.at; }
static void compare_out(void) { compare_lent("the buffer", &ours.out, &theirs.out, lent.at, lent.size); }

#endif
