// An example of a firmware's main loop over the library. What stands for the hardware is the list of turns; the rest is there to be copied.
#include "recorder.h"
#include <stdio.h>
#include <stdlib.h>
#include <string.h>

// ---- What the firmware keeps

static struct recorder_device device; // Lost with power.
static uint8_t page[512];             // For answers.

static struct {
    uint64_t number; // The higher one counts; 0: nothing was saved yet.
    struct recorder_device device;
} copies[2]; // Stands for memory that lasts without power.

static const struct recorder_element elements[] = {
    {.id = 0x00000001, .kind = 1, .health = 0x20, .blocks = 1000},
    {.id = 0x00000003, .kind = 1, .health = 0x10, .blocks = 1500},
    {.id = 0x00010003, .kind = 1, .health = 0x70, .blocks = 500},
    {.id = 0x00020000, .kind = 2},
};

enum { ELEMENTS = sizeof elements / sizeof *elements, LIMIT = 2 };

// ---- The hardware of this example: what each turn of the loop meets

enum happening { NOTHING, COMMAND, MEDIA_ERROR, POWER_LOSS };

struct turn {
    enum happening what;
    uint8_t code;
    uint16_t feature, count;
    uint64_t lba;
};

static const struct turn turns[] = {
    {COMMAND, 0x12, 0, 2, 0},      // No room: 7 has no sense, and is the firmware's own to settle.
    {COMMAND, 0x12, 0x4100, 1, 0}, // Which storage elements are slow? 0001_0003h.
    {COMMAND, 0x7C, 1, 3, 0},      // It is removed,
    {COMMAND, 0x25, 0, 1, 5},      // and nothing is read meanwhile.
    {.what = NOTHING},
    {.what = NOTHING},
    {.what = NOTHING},
    {COMMAND, 0x25, 0, 2, 2499}, // Now this is a sector too many.
    {COMMAND, 0x7C, 0, 1, 0},    // The next removal, in which power fails.
    {.what = POWER_LOSS},
    {COMMAND, 0x25, 0, 1, 5}, // It has failed, and nothing is read
    {COMMAND, 0x7C, 1, 3, 0}, // until a removal, here of a removed element, clears that.
    {COMMAND, 0x25, 0, 1, 5},
    {COMMAND, 0x7C, 0, 1, 0}, // Once more, with a media error.
    {.what = MEDIA_ERROR},
    {.what = NOTHING},
    {.what = NOTHING},
    {.what = NOTHING},
    {COMMAND, 0x12, 0, 1, 0}, // All elements, one of them removed.
};

enum { TURNS = sizeof turns / sizeof *turns };

// ---- The firmware

static void show(uint8_t number)
{
    struct recorder_sense sense = recorder_sense(number);
    printf("%u", number);
    if (sense.there)
        printf(", sense %X/%02X/%02X", sense.key, sense.asc, sense.ascq);
    printf("\n");
}

static void send_page(void)
{
    printf("page");
    for (int i = 0; i < 16; i++)
        printf(" %02X", page[i]);
    printf("\n");
}

static int last_copy(void) { return copies[1].number > copies[0].number; }

// Over the older copy, with its number last, in one store: if power fails before that, the other one counts, and the call was never made.
static void save(void)
{
    int last = last_copy();
    if (memcmp(&copies[last].device, &device, sizeof device) == 0)
        return; // Most calls change nothing.
    copies[!last].device = device;
    copies[!last].number = copies[last].number + 1;
}

// What a call said, which goes out when its changes are saved.
static uint8_t saved(uint8_t number)
{
    if (number == RECORDER_DONE)
        save();
    return number;
}

// Once only: making it again forgets every removal. Without a device nothing may be answered.
static void make(void)
{
    if (saved(recorder_make(&device, elements, ELEMENTS, LIMIT)) == RECORDER_DONE)
        return;
    printf("the table is refused\n");
    exit(1);
}

// What was under way when power failed is wound up before any command. The position need not last.
static void power_up(void)
{
    int steps = 0;
    if (copies[last_copy()].number == 0)
        make();
    device = copies[last_copy()].device;
    device.position = 0xA5A5A5A5;
    saved(recorder_power_cut(&device));
    while (saved(recorder_step(&device)) == RECORDER_DONE)
        steps++;
    printf("power up: %d steps, maximum %lu, failed %u\n", steps, (unsigned long)device.accessible, device.failed);
}

// The security state is that of the drive's Security feature set, which is the firmware's own.
static void obey(const struct turn *t)
{
    uint8_t number = saved(recorder_command(&device, RECORDER_UNLOCKED, t->code, t->feature, t->count, t->lba, page, sizeof page));
    printf("command %02X: ", t->code);
    show(number);
    if (t->code == 0x12 && number == RECORDER_DONE)
        send_page();
}

static void meet(const struct turn *t)
{
    switch (t->what) {
    case NOTHING:
        break;
    case COMMAND:
        obey(t);
        break;
    case MEDIA_ERROR:
        printf("media error: ");
        show(saved(recorder_media_error(&device)));
        break;
    case POWER_LOSS:
        memset(&device, 0xA5, sizeof device); // Whatever is there then.
        power_up();
    }
}

// A turn takes one step of a removal, so that commands are answered in between.
int main(void)
{
    power_up();
    for (int i = 0; i < TURNS; i++) {
        meet(&turns[i]);
        if (saved(recorder_step(&device)) == RECORDER_DONE)
            printf("step\n");
    }
    return 0;
}
