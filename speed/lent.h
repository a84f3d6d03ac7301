// The lent calls of crate `calls`: the proved record of a device, and what a call has left in it.
#include "kase.h"
#include "record.h"
#include <string.h>

static struct device lent;

// The device in the proved record.
static void lend(const struct recorder_device *d)
{
    struct note note = {d->note_full, {d->note_element, d->note_old, d->note_new}};
    memset(&lent, 0, sizeof lent);
    memcpy(lent.table.parts, d->parts, sizeof d->parts);
    lent.table.count = d->count;
    lent.table.limit = d->limit;
    lent.cells.native = d->native;
    lent.cells.accessible = d->accessible;
    memcpy(lent.cells.healths, d->healths, sizeof d->healths);
    lent.cells.failed = d->failed;
    lent.cells.note = note;
    lent.position = d->position;
}

// What the device in the proved record has otherwise, if anything.
static const char *differs(const struct recorder_device *d)
{
    const struct table *table = &lent.table;
    const struct cells *cells = &lent.cells;
    const struct note *note = &cells->note;
    if (table->count != d->count || table->limit != d->limit)
        return "another count or limit than plain C";
    if (memcmp(table->parts, d->parts, sizeof d->parts) != 0)
        return "another element than plain C";
    if (memcmp(cells->healths, d->healths, sizeof d->healths) != 0)
        return "another health than plain C";
    if (cells->native != d->native || cells->accessible != d->accessible)
        return "another address than plain C";
    if (cells->failed != d->failed)
        return "another failed mark than plain C";
    if (note->full != d->note_full)
        return "another note than plain C";
    if (note->full &&
        (note->removal.element != d->note_element || note->removal.old != d->note_old || note->removal.new != d->note_new))
        return "another note than plain C";
    return lent.position == d->position ? NULL : "another position than plain C";
}

// Where each begins; the listing is none of them.
static void *const lent_calls[CALLS] = {
    [STEP] = calls_step,
    [MEDIA_ERROR] = calls_media_error,
    [POWER_CUT] = calls_power_cut,
    [COMRESET] = calls_comreset,
    [HARDWARE_RESET] = calls_hardware_reset,
    [SOFTWARE_RESET] = calls_software_reset,
    [REMOVE] = calls_remove,
    [GRADE] = calls_grade,
    [COMMAND] = calls_command,
    [SHOW] = calls_show,
    [SEND] = calls_send,
};

static struct recorder_written call_lent(enum call call, const struct asked *a, uint8_t *page)
{
    uint8_t answer;
    struct recorder_request request = {a->feature, a->count, a->lba};
    struct recorder_query query = {a->filter, a->type, 0};
    struct written written = {0};
    switch (call) {
    case REMOVE:
        answer = (uint8_t)calls_remove(&lent, a->security, a->feature, a->count, a->lba);
        break;
    case GRADE:
        answer = (uint8_t)calls_grade(&lent, a->count, a->health);
        break;
    case COMMAND:
        answer = (uint8_t)calls_command(&lent, a->security, a->code, a->feature, a->count, a->lba, page, a->room);
        break;
    case SHOW:
        answer = (uint8_t)calls_show(&lent, a->security, &request, page, a->room);
        break;
    case SEND:
        written = calls_send(&lent, &query, a->allocation, page, a->room);
        answer = written.answer;
        break;
    default:
        answer = (uint8_t)((uint32_t (*)(struct device *))lent_calls[call])(&lent);
    }
    return (struct recorder_written){written.count, answer < sizeof numbers ? numbers[answer] : 0xFF};
}
