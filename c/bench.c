// The bench language (docs/BENCH.md) over the library in C: a script on standard input, on one device.
#include "files.h"
#include "recorder.h"
#include "script.h"
#include "text.h"
#include <stdio.h>
#include <stdlib.h>

static struct recorder_element offered[129];
static size_t offered_count;
static struct recorder_device device;
static int is_made;
static uint8_t lent[65536], page[65536]; // The kept page has its first `kept` bytes.
static size_t kept;

// ---- The output

enum { MOST_LINE = 256 }; // No line that is printed is longer.

static char text[65536];
static char *to = text;

static void flush(void)
{
    if (write_whole(1, text, to - text) < 0) {
        perror("bench: standard output");
        exit(2);
    }
    to = text;
}

// Each line begins with this: there is room for it then.
static void begin(void)
{
    if (to > text + sizeof text - MOST_LINE)
        flush();
}

static void say(const char *words)
{
    begin();
    to = put_words(to, words);
    *to++ = '\n';
}

static void say_number(const char *words, uint64_t number)
{
    begin();
    to = put_numbered(to, words, number);
}

// The number, and its sense if it has one.
static void answer(uint8_t number)
{
    struct recorder_sense sense = recorder_sense(number);
    begin();
    to = put_decimal(to, number);
    if (sense.there) {
        *to++ = ' ';
        to = put_hex(to, sense.key, 1);
        *to++ = '/';
        to = put_hex(to, sense.asc, 2);
        *to++ = '/';
        to = put_hex(to, sense.ascq, 2);
    }
    *to++ = '\n';
}

// ---- The table

static void offer(const uint64_t *n)
{
    if (offered_count < 129)
        offered[offered_count++] =
            (struct recorder_element){.id = n[0], .kind = n[1], .health = n[2], .blocks = n[3], .unreported = n[4]};
}

static void make(uint16_t limit)
{
    uint8_t number = recorder_make(&device, offered, offered_count, limit);
    offered_count = 0;
    is_made |= number == 0;
    answer(number);
}

// ---- What a call writes into the lent buffer

static void lend(size_t length)
{
    memset(lent, 0xA5, length);
}

static void keep(size_t written)
{
    kept = written;
    memcpy(page, lent, kept);
}

static void print_row(const uint8_t *row, size_t size)
{
    begin();
    for (size_t k = 0; k < size; k++)
        to = put_hex(to, row[k], 2);
    *to++ = '\n';
}

static int is_zero(const uint8_t *row)
{
    static const uint8_t zeros[32];
    return memcmp(row, zeros, 32) == 0;
}

static void print_page(void)
{
    size_t rows = kept / 32, shown = rows;
    while (shown > 0 && is_zero(page + 32 * (shown - 1)))
        shown--;
    for (size_t i = 0; i < shown; i++)
        print_row(page + 32 * i, 32);
    if (shown < rows)
        say_number("zeros ", rows - shown);
}

static void print_data(void)
{
    say_number("bytes ", kept);
    for (size_t at = 0; at < kept; at += 32)
        print_row(page + at, kept - at < 32 ? kept - at : 32);
}

static void print_touched(size_t written, size_t length)
{
    for (; written < length; written++)
        if (lent[written] != 0xA5) {
            say_number("touched ", written);
            return;
        }
}

// ---- The front call, and those for a SCSI host

static struct recorder_request request_of(const uint64_t *n)
{
    return (struct recorder_request){n[0], n[1], n[2]};
}

static struct recorder_query query_of(const uint64_t *n)
{
    return (struct recorder_query){n[0], n[1], n[2]};
}

static void command(uint8_t security, const uint64_t *n)
{
    size_t length = n[4], written = 0;
    lend(length);
    uint8_t number = recorder_command(&device, security, n[0], n[1], n[2], n[3], lent, length);
    answer(number);
    if (n[0] == 0x12 && number == 0) {
        written = 512 * n[2];
        keep(written);
        print_page();
    }
    print_touched(written, length);
}

static void send(const uint64_t *n)
{
    size_t length = n[4];
    lend(length);
    struct recorder_written w = recorder_send(&device, query_of(n), n[3], lent, length);
    answer(w.answer);
    if (w.answer == 0) {
        keep(w.count);
        print_data();
    }
    print_touched(w.count, length);
}

// Says what came of a conversion, keeps it, and prints it as its kind is printed.
static void convert(struct recorder_converted c, void (*print)(void), size_t length)
{
    if (c.answer == 9)
        say_number("9 at ", c.place);
    else
        say_number("", c.answer);
    if (c.answer == 0) {
        keep(c.count);
        print();
    }
    print_touched(c.count, length);
}

static void convert_to_scsi(const uint64_t *n)
{
    lend(n[3]);
    convert(recorder_to_scsi(page, kept, request_of(n), lent, n[3]), print_data, n[3]);
}

static void convert_to_ata(const uint64_t *n)
{
    lend(n[4]);
    convert(recorder_to_ata(page, kept, query_of(n), n[3], lent, n[4]), print_page, n[4]);
}

// ---- What the device holds

static void print_note(void)
{
    if (!device.note_full) {
        *to++ = '-';
        return;
    }
    to = put_hex(to, device.note_element, 8);
    *to++ = ' ';
    to = put_decimal(to, device.note_old);
    *to++ = ' ';
    to = put_decimal(to, device.note_new);
}

static void print_element(const struct recorder_part *part, uint8_t health)
{
    begin();
    to = put_hex(to, part->id, 8);
    *to++ = ' ';
    to = put_hex(to, part->kind, 2);
    *to++ = ' ';
    to = put_hex(to, health, 2);
    *to++ = ' ';
    to = put_decimal(to, part->blocks);
    *to++ = ' ';
    *to++ = '0' + (part->unreported != 0);
    *to++ = '\n';
}

static void print_cells(void)
{
    static const char *const positions[] = {"work1", "work2", "work3", "work4", "work5", "wind1", "wind2", "wind3", "wind4"};
    begin();
    to = put_words(to, "limit ");
    to = put_decimal(to, device.limit);
    to = put_words(to, " native ");
    to = put_decimal(to, device.native);
    to = put_words(to, " accessible ");
    to = put_decimal(to, device.accessible);
    to = put_words(to, device.failed ? " failed 1 note " : " failed 0 note ");
    print_note();
    to = put_words(to, " position ");
    to = put_words(to, positions[device.position]);
    *to++ = '\n';
    for (size_t i = 0; i < device.count; i++)
        print_element(&device.parts[i], device.healths[i]);
}

// ---- The kept page

static void set_length(size_t length)
{
    if (length > kept)
        memset(page + kept, 0, length - kept);
    kept = length;
    say_number("length ", kept);
}

static void poke(size_t place, uint8_t byte)
{
    if (place < kept)
        page[place] = byte;
    else
        say("outside");
}

static void print_header(struct recorder_header h)
{
    begin();
    to = put_words(to, "number ");
    to = put_decimal(to, h.number);
    to = put_words(to, " returned ");
    to = put_decimal(to, h.returned);
    to = put_words(to, " busy ");
    to = put_hex(to, h.busy, 8);
    to = put_words(to, " limit ");
    to = put_decimal(to, h.limit);
    to = put_words(to, " removed ");
    to = put_decimal(to, h.removed);
    *to++ = '\n';
}

static void print_descriptor(struct recorder_descriptor d)
{
    begin();
    to = put_hex(to, d.id, 8);
    *to++ = ' ';
    *to++ = '0' + d.restorable;
    *to++ = ' ';
    to = put_hex(to, d.kind, 2);
    *to++ = ' ';
    to = put_hex(to, d.health, 2);
    *to++ = ' ';
    if (d.capacity == UINT64_MAX)
        *to++ = '-';
    else
        to = put_decimal(to, d.capacity);
    *to++ = '\n';
}

// What of a list is not there, if anything.
static void print_missing(uint32_t whole, uint32_t number, int torn)
{
    if (whole == number)
        return;
    begin();
    to = put_words(to, torn ? "torn " : "cut ");
    to = put_decimal(to, whole);
    to = put_numbered(to, " of ", number);
}

typedef struct recorder_slot descriptor_of(const uint8_t *bytes, size_t size, uint32_t k);

// What was read, by the kind's own access to a descriptor. Of what a page returns none is missing.
static void print_reading(struct recorder_reading r, descriptor_of *descriptor)
{
    if (r.answer != 0) {
        say_number("9 at ", r.place);
        return;
    }
    say("0");
    print_header(r.header);
    for (uint32_t k = 0; k < r.whole; k++)
        print_descriptor(descriptor(page, kept, k).descriptor);
    print_missing(r.whole, r.header.returned, r.torn);
}

static void print_next(struct recorder_move m)
{
    if (m.answer != 0)
        say_number("9 at ", m.place);
    else if (!m.asks)
        say("end");
    else {
        begin();
        to = put_words(to, "ask ");
        to = put_hex(to, m.start, 8);
        *to++ = '\n';
    }
}

// ---- The calls

enum name {
    ELEMENT, MAKE, COMMAND, STEP, ERROR, CUT, COMRESET, HARDRESET, SOFTRESET, GRADE, CELLS, LENGTH, POKE, READ, NEXT,
    SCSI, SCSIREAD, TOSCSI, TOATA, NAMES
};

// The numbers of each call, by the most that each may be; a command's state stands before them.
static const struct {
    const char *name;
    int needs_device;
    size_t count;
    uint64_t most[5];
} calls[NAMES] = {
    [ELEMENT] = {"element", 0, 5, {0xFFFFFFFF, 0xFF, 0xFF, UINT64_MAX, 1}},
    [MAKE] = {"make", 0, 1, {0xFFFF}},
    [COMMAND] = {"command", 1, 5, {0xFF, 0xFFFF, 0xFFFF, UINT64_MAX, 0x10000}},
    [STEP] = {"step", 1, 0, {0}},
    [ERROR] = {"error", 1, 0, {0}},
    [CUT] = {"cut", 1, 0, {0}},
    [COMRESET] = {"comreset", 1, 0, {0}},
    [HARDRESET] = {"hardreset", 1, 0, {0}},
    [SOFTRESET] = {"softreset", 1, 0, {0}},
    [GRADE] = {"grade", 1, 2, {0xFFFFFFFF, 0xFF}},
    [CELLS] = {"cells", 1, 0, {0}},
    [LENGTH] = {"length", 0, 1, {0x10000}},
    [POKE] = {"poke", 0, 2, {0x10000, 0xFF}},
    [READ] = {"read", 0, 3, {0xFFFF, 0xFFFF, UINT64_MAX}},
    [NEXT] = {"next", 0, 3, {0xFFFF, 0xFFFF, UINT64_MAX}},
    [SCSI] = {"scsi", 1, 5, {0xFF, 0xFF, 0xFFFFFFFF, 0xFFFFFFFF, 0x10000}},
    [SCSIREAD] = {"scsiread", 0, 3, {0xFF, 0xFF, 0xFFFFFFFF}},
    [TOSCSI] = {"toscsi", 0, 4, {0xFFFF, 0xFFFF, UINT64_MAX, 0x10000}},
    [TOATA] = {"toata", 0, 5, {0xFF, 0xFF, 0xFFFFFFFF, 0xFFFF, 0x10000}},
};

static void call(enum name name, uint8_t security, const uint64_t *n)
{
    switch (name) {
    case ELEMENT:
        offer(n);
        break;
    case MAKE:
        make(n[0]);
        break;
    case COMMAND:
        command(security, n);
        break;
    case STEP:
        answer(recorder_step(&device));
        break;
    case ERROR:
        answer(recorder_media_error(&device));
        break;
    case CUT:
        answer(recorder_power_cut(&device));
        break;
    case COMRESET:
        answer(recorder_comreset(&device));
        break;
    case HARDRESET:
        answer(recorder_hardware_reset(&device));
        break;
    case SOFTRESET:
        answer(recorder_software_reset(&device));
        break;
    case GRADE:
        answer(recorder_grade(&device, n[0], n[1]));
        break;
    case CELLS:
        print_cells();
        break;
    case LENGTH:
        set_length(n[0]);
        break;
    case POKE:
        poke(n[0], n[1]);
        break;
    case READ:
        print_reading(recorder_read(page, kept, request_of(n)), recorder_descriptor);
        break;
    case NEXT:
        print_next(recorder_next(page, kept, request_of(n)));
        break;
    case SCSI:
        send(n);
        break;
    case SCSIREAD:
        print_reading(recorder_scsi_read(page, kept, query_of(n)), recorder_scsi_descriptor);
        break;
    case TOSCSI:
        convert_to_scsi(n);
        break;
    case TOATA:
        convert_to_ata(n);
        break;
    case NAMES:
        break;
    }
}

static int get_security(struct word word, uint8_t *security)
{
    static const char *const states[] = {
        [RECORDER_LOCKED] = "locked",
        [RECORDER_UNLOCKED] = "unlocked",
        [RECORDER_FROZEN] = "frozen",
    };
    for (size_t i = 0; i < sizeof states / sizeof *states; i++)
        if (is_word(word, states[i])) {
            *security = i;
            return 1;
        }
    return 0;
}

static enum name name_of(struct word word)
{
    enum name name = 0;
    while (name < NAMES && !is_word(word, calls[name].name))
        name++;
    return name;
}

static void obey(const char *line, size_t length)
{
    struct word words[MOST_WORDS], *word = words + 1;
    uint8_t security = RECORDER_LOCKED;
    uint64_t numbers[5];
    if (length > 200) {
        say("not a call");
        return;
    }
    size_t count = split(line, length, words);
    if (count == 0 || words[0].at[0] == '#')
        return;
    enum name name = name_of(words[0]);
    if (name == NAMES || count != 1 + (name == COMMAND) + calls[name].count || (name == COMMAND && !get_security(*word++, &security)) ||
        !get_numbers(word, calls[name].most, calls[name].count, numbers))
        say("not a call");
    else if (calls[name].needs_device && !is_made)
        say("no device");
    else
        call(name, security, numbers);
}

// The bytes of the script one after the other: a line of more than 200 is only counted.
int main(void)
{
    static char piece[65536], line[200];
    size_t length = 0;
    ssize_t got;
    while ((got = read(0, piece, sizeof piece)) > 0)
        for (const char *at = piece; at < piece + got; at++) {
            if (*at == '\n') {
                obey(line, length);
                length = 0;
            } else if (length < 200)
                line[length++] = *at;
            else
                length = 201;
        }
    if (got < 0) {
        perror("bench: standard input");
        return 2;
    }
    obey(line, length);
    flush();
    return 0;
}
