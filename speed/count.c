// Makes the call of each case in three forms, lent, as the library has it for C, and in plain C, counts them by the trap flag and compares
// what they leave. Exit status: 0 within the limits, 1 a figure is over its limit, 2 trouble, a difference among it.
#include "cases.h"
#include "forms.h"
#include "lent.h"
#include "traps.h"
#include <stdio.h>

static const char *const names[CALLS] = {"step",  "media_error", "power_cut", "comreset", "hardware_reset", "software_reset", "remove",
                                         "grade", "command",     "show",      "send",     "list"};

// ---- The counting

struct figures {
    long own, stack;
    long tables, table_bytes, copies, copy_bytes, clears, clear_bytes;
};

static struct figures uncounted, *counted = &uncounted;
static uint64_t top; // The stack where the call begins.

// All forms of a call copy and clear through these, which stand in the C library's place. 1 KB and more can only be the table, alone or with
// the rest of the device. Their own instructions are in a section of their own, and are not counted.
#define MOVE __attribute__((section("moves"))) void *
extern char __start_moves[], __stop_moves[];

MOVE memmove(void *to, const void *from, size_t size)
{
    char *t = to;
    const char *f = from;
    *(size >= 1024 ? &counted->tables : &counted->copies) += 1;
    *(size >= 1024 ? &counted->table_bytes : &counted->copy_bytes) += size;
    if (t <= f)
        for (size_t i = 0; i < size; i++)
            t[i] = f[i];
    else
        for (size_t i = size; i > 0; i--)
            t[i - 1] = f[i - 1];
    return to;
}

MOVE memcpy(void *to, const void *from, size_t size)
{
    return memmove(to, from, size);
}

MOVE memset(void *to, int byte, size_t size)
{
    counted->clears += 1;
    counted->clear_bytes += size;
    for (size_t i = 0; i < size; i++)
        ((char *)to)[i] = byte;
    return to;
}

static void count(uint64_t at, uint64_t stack)
{
    if (at >= (uint64_t)__start_moves && at < (uint64_t)__stop_moves)
        return;
    if (counted->own++ == 0)
        top = stack;
    if (counted->stack < (long)(top - stack))
        counted->stack = top - stack;
}

// ---- The devices and buffers

// What a call has answered, left and cost.
struct run {
    struct recorder_device device; // Of a lent call that in `lent`.
    struct recorder_written said;
    uint8_t page[8192];
    struct figures figures;
};

static struct run in_lent, in_library, in_plain;

static uint32_t identifier(enum which element, int elements)
{
    switch (element) {
    case FIRST:
        return 2;
    case SECOND:
        return 4;
    case LAST:
        return 2 * elements;
    default:
        return 2 * elements + 1;
    }
}

static void take_steps(struct recorder_device *d, int steps)
{
    for (; steps > 0; steps--)
        plain_step(d);
}

static void make(struct recorder_device *d, int elements)
{
    struct recorder_element list[128];
    for (int i = 0; i < elements; i++)
        list[i] = (struct recorder_element){.id = 2 * i + 2, .kind = i == 0 ? 2 : 1, .health = 0x70, .blocks = i == 0 ? 0 : 1000};
    plain_make(d, list, elements, 2);
}

// The device of a case, brought there by plain C's calls.
static void set_up(struct recorder_device *d, const struct kase *k, int elements)
{
    make(d, elements);
    for (int i = 1; i <= k->removed; i++) {
        plain_remove(d, UNLOCKED, 0, d->parts[i].id, 0);
        take_steps(d, 5);
    }
    if (k->step == IDLE)
        return;
    plain_remove(d, UNLOCKED, 0, identifier(LAST, elements), 0);
    if (k->step >= WIND_1)
        plain_power_cut(d);
    take_steps(d, k->step - d->position);
}

static void begin(struct run *run, const struct recorder_device *d)
{
    memset(run, 0, sizeof *run);
    memset(run->page, 0xA5, sizeof run->page);
    run->device = *d;
}

static void run_lent(const struct kase *k, const struct asked *a)
{
    lend(&in_lent.device);
    counted = &in_lent.figures;
    begin_traps(lent_calls[k->call]);
    in_lent.said = call_lent(k->call, a, in_lent.page);
    end_traps();
    counted = &uncounted;
}

static void run_form(struct run *run, const struct form *form, const struct kase *k, const struct asked *a)
{
    counted = &run->figures;
    begin_traps(start_of(form, k->call));
    run->said = call_form(form, k->call, a, &run->device, run->page);
    end_traps();
    counted = &uncounted;
}

// What a run has answered or written otherwise than plain C, if anything.
static const char *says_otherwise(const struct run *run)
{
    if (run->figures.own == 0)
        return "no counter: the processor's trap flag does not work here";
    if (run->said.answer != in_plain.said.answer)
        return "another answer than plain C";
    if (run->said.count != in_plain.said.count)
        return "another number of bytes than plain C";
    return memcmp(run->page, in_plain.page, sizeof run->page) == 0 ? NULL : "another page than plain C";
}

// The library's device must be the same to the byte.
static const char *leaves_otherwise(void)
{
    return memcmp(&in_library.device, &in_plain.device, sizeof in_plain.device) == 0 ? NULL : "another device than plain C";
}

// ---- The table

static void print_names(void)
{
    printf("%-23s %-16s %8s %5s %6s %11s %6s %10s %6s %11s %5s %5s %7s %7s %7s\n", "call", "path", "elements", "own", "tables",
           "table_bytes", "copies", "copy_bytes", "clears", "clear_bytes", "stack", "c_own", "c_bytes", "c_stack", "times_c");
}

// A case in one of its forms.
struct row {
    const struct kase *kase;
    const char *prefix;
    int elements;
    const struct run *run;
};

static void print(const struct row *row)
{
    const struct figures *p = &row->run->figures, *c = &in_plain.figures;
    int width = 23 - strlen(row->prefix);
    printf("%s%-*s %-16s %8d %5ld %6ld %11ld %6ld %10ld %6ld %11ld %5ld %5ld %7ld %7ld %7.2f\n", row->prefix, width, names[row->kase->call],
           row->kase->path, row->elements, p->own, p->tables, p->table_bytes, p->copies, p->copy_bytes, p->clears, p->clear_bytes, p->stack,
           c->own, c->table_bytes + c->copy_bytes + c->clear_bytes, c->stack, (double)p->own / c->own);
}

static void say(const struct row *row, const char *words)
{
    dprintf(2, "speed: %s%s %s, %d elements: %s", row->prefix, names[row->kase->call], row->kase->path, row->elements, words);
}

// Says so if a figure is over its limit.
static int is_over(const struct row *row, const char *what, long figure, long limit)
{
    if (figure <= limit)
        return 0;
    say(row, what);
    dprintf(2, " %ld, limit %ld\n", figure, limit);
    return 1;
}

// By the limits of its case.
static int does_exceed(const struct row *row)
{
    const struct kase *k = row->kase;
    const struct figures *p = &row->run->figures;
    int over = is_over(row, "copies of the table", p->tables, k->limit.tables);
    over |= is_over(row, "bytes of stack", p->stack, k->limit.stack);
    if (k->limit.own.number > 0)
        over |= is_over(row, "instructions", p->own, k->limit.own.number);
    else if (row->elements == 128)
        over |= is_over(row, "instructions", p->own, k->limit.own.percent * in_plain.figures.own / 100);
    return over;
}

// By the limits beside the lent call.
static int does_exceed_lent(const struct row *row)
{
    const struct figures *p = &row->run->figures, *beside = &in_lent.figures;
    int shows = row->kase->call == COMMAND && row->kase->asked.code == 0x12;
    int frames = shows ? 2 * FRAME : row->kase->call == SHOW ? AROUND + FRAME : FRAME;
    int over = is_over(row, "copies of the table", p->tables, beside->tables + COPIES);
    over |= is_over(row, "bytes of stack", p->stack, frames);
    return over | is_over(row, "instructions", p->own, beside->own + beside->own / 10 + MORE);
}

// Prints a row, unless there is trouble, and says it.
static int has_trouble(const struct row *row, const char *trouble)
{
    if (!trouble) {
        print(row);
        return 0;
    }
    say(row, trouble);
    dprintf(2, "\n");
    return 1;
}

static int measure_lent(const struct kase *k, int elements, const struct asked *a)
{
    struct row row = {k, "", elements, &in_lent};
    run_lent(k, a);
    const char *trouble = says_otherwise(&in_lent);
    if (has_trouble(&row, trouble ? trouble : differs(&in_plain.device)))
        return 2;
    return does_exceed(&row);
}

static int measure_library(const struct kase *k, int elements, const struct asked *a)
{
    struct row row = {k, "recorder_", elements, &in_library};
    run_form(&in_library, &library, k, a);
    const char *trouble = says_otherwise(&in_library);
    if (has_trouble(&row, trouble ? trouble : leaves_otherwise()))
        return 2;
    return lent_calls[k->call] ? does_exceed_lent(&row) : does_exceed(&row);
}

// Makes the call of a case in all forms that it has: whether one is over its limit, or 2.
static int measure(const struct kase *k, int elements)
{
    static struct recorder_device device;
    static uint8_t page[4608];
    struct asked asked = k->asked;
    int over = 0;
    if (asked.element != NONE)
        asked.count = identifier(asked.element, elements);
    set_up(&device, k, elements);
    if (k->call == LIST)
        plain_show(&device, UNLOCKED, (struct recorder_request){.count = asked.count}, page, sizeof page);
    asked.page = page;
    begin(&in_lent, &device);
    begin(&in_library, &device);
    begin(&in_plain, &device);
    run_form(&in_plain, &plain, k, &asked);
    if (lent_calls[k->call])
        over |= measure_lent(k, elements, &asked);
    if (over < 2 && start_of(&library, k->call))
        over |= measure_library(k, elements, &asked);
    return over;
}

int main(void)
{
    static const int sizes[] = {4, 128};
    int over = 0;
    print_names();
    for (size_t s = 0; s < sizeof sizes / sizeof *sizes; s++)
        for (size_t i = 0; i < sizeof cases / sizeof *cases; i++) {
            over |= measure(&cases[i], sizes[s]);
            if (over >= 2)
                return 2;
        }
    return over;
}
