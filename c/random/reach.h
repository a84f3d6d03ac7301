// What the calls have reached: how many there were of each kind, and what they were answered.
#ifndef REACH_H
#define REACH_H
#include <stdint.h>
#include <stdio.h>

// Those that are answered with a number of document 01, then those that find something or not.
enum kind {
    MAKE, REMOVE, STATUS, OTHER, STEP, MEDIA_ERROR, POWER_CUT, COMRESET, HARDWARE_RESET, SOFTWARE_RESET, GRADE, SHOW, SEND,
    READ, SCSI_READ, LIST, SCSI_LIST, TO_SCSI, TO_ATA, NEXT, OPEN,
    SENSE, DESCRIPTOR, SCSI_DESCRIPTOR, NEXT_REQUEST, NEXT_DIFFERENCE, SPAN,
    KINDS
};

static const char *const kind_names[KINDS] = {
    "make", "command 7Ch", "command 12h", "command", "step", "media_error", "power_cut", "comreset", "hardware_reset", "software_reset",
    "grade", "show", "send", "read", "scsi_read", "list", "scsi_list", "to_scsi", "to_ata", "next", "open",
    "sense", "descriptor", "scsi_descriptor", "next_request", "next_difference", "span",
};

enum { ANSWERS = 12, POSITIONS = 10 }; // Positions 0 to 8, and all above.

static struct {
    uint64_t calls;
    uint64_t answers[KINDS][ANSWERS];
    uint64_t found[KINDS][2];
    uint64_t accepted;                // Removals that have begun.
    uint64_t positions[3][POSITIONS]; // While a removal is under way: steps, errors and cuts at each.
    uint64_t junk, on_junk;           // How often a record was junked, and calls on such records.
} reach;

static void print_answers(enum kind kind)
{
    printf("%-16s", kind_names[kind]);
    for (int answer = 0; answer < ANSWERS; answer++)
        printf(" %9lu", reach.answers[kind][answer]);
    printf("\n");
}

static void print_positions(const char *name, const uint64_t *counts)
{
    printf("%-16s", name);
    for (int position = 0; position < POSITIONS; position++)
        printf(" %9lu", counts[position]);
    printf("\n");
}

static void print_reach(void)
{
    printf("answered        ");
    for (int answer = 0; answer < ANSWERS; answer++)
        printf(" %9d", answer);
    printf("\n");
    for (enum kind kind = 0; kind < SENSE; kind++)
        print_answers(kind);
    printf("found                  some      none\n");
    for (enum kind kind = SENSE; kind < KINDS; kind++)
        printf("%-16s %9lu %9lu\n", kind_names[kind], reach.found[kind][1], reach.found[kind][0]);
    printf("at position             0         1         2         3         4         5         6         7         8     above\n");
    print_positions("step", reach.positions[0]);
    print_positions("media_error", reach.positions[1]);
    print_positions("power_cut", reach.positions[2]);
    printf("removals accepted %lu records junked %lu calls on junk %lu\n", reach.accepted, reach.junk, reach.on_junk);
}

#endif
