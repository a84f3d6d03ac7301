/* The recorder's library as C11 and C++ see it: librecorder.a, for x86-64 Linux (System V). It needs memcpy and memset, and nothing else.

   Every call is answered for every input. What it answers, where it has an answer, is a number of document 01, "What a call says": 0 is done,
   and with any other number the device and every byte that was lent are as they were. A pointer is never null, also where its size is 0, and
   points to as many bytes or records as are said; what one call writes does not overlap what else it is lent. A record is aligned to 8, and
   nothing that is lent changes during a call. The library keeps no state.

   A cut is between calls: a call writes several fields, in no promised order. Firmware that keeps the record itself through a loss of power
   saves it whole after a call, in two copies, say; the note is one cell, its four fields are saved together.

   The stack, as measured: up to 2.6 KB for a call on a device, 4.5 KB for recorder_send, 4.8 KB for 12h in the front call; 6.5 KB for
   recorder_make with the older Rattle kit rattle-kit-5b-plain, and not again with today's. */
#ifndef RECORDER_H
#define RECORDER_H

#include <stddef.h>
#include <stdint.h>

#ifdef __cplusplus
#define RECORDER_ASSERT static_assert
extern "C" {
#else
#define RECORDER_ASSERT _Static_assert
#endif

enum {
    RECORDER_DONE = 0,            /* done, or let through */
    RECORDER_SECURITY_LOCKED = 1, /* a removal while the security state is locked */
    RECORDER_IN_PROGRESS = 2,     /* a removal is under way */
    RECORDER_FAILED = 3,          /* media access while the failed mark is set */
    RECORDER_INVALID_FIELD = 4,   /* a field that the command or the query does not take */
    RECORDER_BEYOND_MAX = 5,      /* beyond the accessible maximum */
    RECORDER_UNKNOWN_COMMAND = 6, /* a code that the device does not have */
    RECORDER_SMALL_BUFFER = 7,    /* no room for what is to be written */
    RECORDER_TABLE_REFUSED = 8,   /* no device can be made of the list */
    RECORDER_PAGE_REFUSED = 9,    /* with a place, or which page */
    RECORDER_NO_REMOVAL = 10,     /* none is under way */
    RECORDER_GRADE_REFUSED = 11   /* no such element, or a removed one, or a health above CFh */
};

/* ---- The device */

/* An element of an offered table. A flag's byte says yes unless it is 0, here and below. */
struct recorder_element {
    uint32_t id;
    uint8_t kind; /* 01h is storage */
    uint8_t health;
    uint8_t unreported; /* a flag: the capacity is not shown */
    uint8_t spare;      /* not looked at */
    uint64_t blocks;
};

/* An element as built; its health is in `healths`, at the same index. */
struct recorder_part {
    uint32_t id;
    uint8_t kind;
    uint8_t unreported;
    uint16_t spare;
    uint64_t blocks;
};

/* The firmware keeps one, and lends it to each call. Each of its bytes is a field's, and any bytes are a device: elements past the 128th do not
   count, and a position above 8 is the first winding-up step, 5. A number that says so already stays as it is: a flag of 7 stays 7 while it is
   set. */
struct recorder_device {
    struct recorder_part parts[128]; /* the table as built, with count and limit: only recorder_make writes them */
    uint64_t native, accessible;     /* the maximum addresses */
    uint64_t note_old, note_new;     /* with note_element, what the note holds while it is full */
    uint32_t note_element;
    uint32_t count;
    uint16_t limit;
    uint8_t note_full; /* a flag: a removal is under way */
    uint8_t failed;    /* a flag: the failed mark */
    uint32_t position; /* the next step, work 0 to 4, winding up 5 to 8; lost with power */
    uint8_t healths[128];
};

enum { RECORDER_LOCKED = 0, RECORDER_UNLOCKED = 1, RECORDER_FROZEN = 2 }; /* any other security state is locked */

/* A request for status pages, as the registers have it, and that of a SCSI host. */
struct recorder_request {
    uint16_t feature, count;
    uint64_t lba;
};

struct recorder_query {
    uint8_t filter, report; /* 0 or 1; above, the device says 4 and a reader 9 */
    uint32_t start;
};

/* How many bytes were written; none unless the answer is 0. */
struct recorder_written {
    size_t count;
    uint8_t answer;
};

/* A new device of a list, in the place of the one that was there, or 8. */
uint8_t recorder_make(struct recorder_device *d, const struct recorder_element *list, size_t count, uint16_t limit);

/* Any command; a status page (12h) is written into the buffer. */
uint8_t recorder_command(struct recorder_device *d, uint8_t security, uint8_t code, uint16_t feature, uint16_t count, uint64_t lba,
                         uint8_t *buf, size_t size);

/* A work step, or a step of winding up; 10 where no removal is under way. After power came back: a cut, and steps until 10. */
uint8_t recorder_step(struct recorder_device *d);
uint8_t recorder_media_error(struct recorder_device *d); /* without a removal 10 */
uint8_t recorder_power_cut(struct recorder_device *d);   /* without a removal 0 */
uint8_t recorder_comreset(struct recorder_device *d);
uint8_t recorder_hardware_reset(struct recorder_device *d);
uint8_t recorder_software_reset(struct recorder_device *d);
uint8_t recorder_grade(struct recorder_device *d, uint32_t id, uint8_t health); /* 0 or 11 */

/* A status page by itself, and the data for a SCSI host, cut at an allocation length. */
uint8_t recorder_show(const struct recorder_device *d, uint8_t security, struct recorder_request request, uint8_t *buf, size_t size);
struct recorder_written recorder_send(const struct recorder_device *d, struct recorder_query query, uint32_t allocation, uint8_t *buf,
                                      size_t size);

/* "Sense key/ASC/ASCQ" of a number, if it has one: 7 and above have none, which is not 0/00/00. */
struct recorder_sense {
    uint8_t there, key, asc, ascq;
};

struct recorder_sense recorder_sense(uint8_t number);

/* ---- The host: pages, and SCSI data, which may be cut anywhere after its header. What an answer does not name is 0. */

struct recorder_header {
    uint32_t number, returned, busy;
    uint16_t limit, removed;
};

struct recorder_descriptor {
    uint32_t id;
    uint8_t restorable, kind, health;
    uint64_t capacity; /* all ones: not reported */
};

/* 0: the header's numbers, how many descriptors are there whole, and whether one was cut through; 9: the place of the first offence. */
struct recorder_reading {
    size_t place;
    struct recorder_header header;
    uint32_t whole;
    uint8_t torn;
    uint8_t answer;
};

/* The descriptor at a number, from 0, if the header counts it: of a page that recorder_read accepted, or of SCSI data, if it is there whole. */
struct recorder_slot {
    struct recorder_descriptor descriptor;
    uint8_t there;
};

struct recorder_reading recorder_read(const uint8_t *page, size_t size, struct recorder_request request);
struct recorder_slot recorder_descriptor(const uint8_t *page, size_t size, uint32_t k);
struct recorder_reading recorder_scsi_read(const uint8_t *data, size_t size, struct recorder_query query);
struct recorder_slot recorder_scsi_descriptor(const uint8_t *data, size_t size, uint32_t k);

/* A listing's whole text, or 7; a refused page's is the line that says so. It is judged as the answer to filter 0, report type 0 and start 0;
   more than 65,536 bytes are refused at 65536. A room of 80,000 bytes is always enough. */
struct recorder_written recorder_list(const uint8_t *page, size_t size, uint8_t *out, size_t room);
struct recorder_written recorder_scsi_list(const uint8_t *data, size_t size, uint8_t *out, size_t room);

/* One kind turned into the other: 0 and how many bytes, 7, or 9 and the place of the first offence. `pages` is how many pages are filled. */
struct recorder_converted {
    size_t count, place;
    uint8_t answer;
};

struct recorder_converted recorder_to_scsi(const uint8_t *page, size_t size, struct recorder_request request, uint8_t *out, size_t room);
struct recorder_converted recorder_to_ata(const uint8_t *data, size_t size, struct recorder_query query, uint16_t pages, uint8_t *out,
                                          size_t room);

/* A walk over small pages. 0: whether it asks once more, and where that request starts; 9: the place of the first offence. `pages` is the next
   request's COUNT. */
struct recorder_move {
    size_t place;
    uint32_t start;
    uint8_t asks;
    uint8_t answer;
};

struct recorder_move recorder_next(const uint8_t *page, size_t size, struct recorder_request request);
struct recorder_request recorder_next_request(struct recorder_request request, uint32_t start, uint16_t pages);

/* ---- Two pages compared */

enum { RECORDER_OLDER = 1, RECORDER_NEWER = 2 }; /* a turn: which page */

/* 0: the last identifier that is compared, and whether a page was cut short there; 9: the page's turn. */
struct recorder_opening {
    uint32_t end;
    uint8_t cut;
    uint8_t turn; /* which page */
    uint8_t answer;
};

/* How many descriptors of each page lie before; a comparison starts at {0, 0}. */
struct recorder_cursor {
    uint32_t older, newer;
};

enum { RECORDER_NO_MORE = 0, RECORDER_ONLY_OLDER = 1, RECORDER_ONLY_NEWER = 2, RECORDER_CHANGED = 3 };

/* The next difference: its descriptors' numbers in the pages that have it, and where the comparison goes on. */
struct recorder_difference {
    struct recorder_cursor at, next;
    uint8_t kind;
};

/* A part of one of the pages; no bytes where there is none. */
struct recorder_span {
    size_t place, length;
    uint8_t turn; /* which page */
};

struct recorder_opening recorder_open(const uint8_t *older, size_t older_size, const uint8_t *newer, size_t newer_size,
                                      struct recorder_request request);

/* These two are for pages that recorder_open accepted; others are answered too, in time that goes by what their headers say. */
struct recorder_difference recorder_next_difference(const uint8_t *older, size_t older_size, const uint8_t *newer, size_t newer_size,
                                                    struct recorder_cursor from);

/* The 32 bytes of the descriptor that a difference speaks of, the newer if it is in both. */
struct recorder_span recorder_span(const uint8_t *older, size_t older_size, const uint8_t *newer, size_t newer_size,
                                   struct recorder_difference difference);

/* ---- As the library lays them out (crates/recorder/proofs/Layouts has the same numbers) */

#define RECORDER_AT(type, field, place) RECORDER_ASSERT(offsetof(struct type, field) == place, #type "." #field)
#define RECORDER_SIZE(type, size) RECORDER_ASSERT(sizeof(struct type) == size, #type)

RECORDER_SIZE(recorder_element, 16);
RECORDER_AT(recorder_element, id, 0);
RECORDER_AT(recorder_element, kind, 4);
RECORDER_AT(recorder_element, health, 5);
RECORDER_AT(recorder_element, unreported, 6);
RECORDER_AT(recorder_element, spare, 7);
RECORDER_AT(recorder_element, blocks, 8);

RECORDER_SIZE(recorder_part, 16);
RECORDER_AT(recorder_part, id, 0);
RECORDER_AT(recorder_part, kind, 4);
RECORDER_AT(recorder_part, unreported, 5);
RECORDER_AT(recorder_part, spare, 6);
RECORDER_AT(recorder_part, blocks, 8);

RECORDER_SIZE(recorder_device, 2224);
RECORDER_AT(recorder_device, parts, 0);
RECORDER_AT(recorder_device, native, 2048);
RECORDER_AT(recorder_device, accessible, 2056);
RECORDER_AT(recorder_device, note_old, 2064);
RECORDER_AT(recorder_device, note_new, 2072);
RECORDER_AT(recorder_device, note_element, 2080);
RECORDER_AT(recorder_device, count, 2084);
RECORDER_AT(recorder_device, limit, 2088);
RECORDER_AT(recorder_device, note_full, 2090);
RECORDER_AT(recorder_device, failed, 2091);
RECORDER_AT(recorder_device, position, 2092);
RECORDER_AT(recorder_device, healths, 2096);

#ifdef __cplusplus
}
#endif

#endif
