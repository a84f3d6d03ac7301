// The device record and the lent calls as the kit's compiler lays them out: the fields are those of crates/table, crates/device and
// crates/paper, in their order. A slip here shows as a difference from plain C.
#include "../c/recorder.h"

struct table {
    struct recorder_part parts[128];
    size_t count;
    uint16_t limit;
};

struct note {
    uint8_t full;
    struct {
        uint32_t element;
        uint64_t old, new;
    } removal;
};

struct cells {
    uint64_t native, accessible;
    uint8_t healths[128];
    uint8_t failed;
    struct note note;
};

struct device {
    struct table table;
    struct cells cells;
    uint8_t position;
};

struct written {
    uint8_t answer;
    size_t count;
};

// An answer comes back by its place in `paper::Answer`; these are its numbers in document 01.
static const uint8_t numbers[] = {0, 1, 2, 3, 4, 5, 6, 7, 8, 10, 11};

// Of the result's register the lowest byte is the answer.
uint32_t calls_step(struct device *d);
uint32_t calls_media_error(struct device *d);
uint32_t calls_power_cut(struct device *d);
uint32_t calls_comreset(struct device *d);
uint32_t calls_hardware_reset(struct device *d);
uint32_t calls_software_reset(struct device *d);
uint32_t calls_remove(struct device *d, uint8_t security, uint16_t feature, uint16_t count, uint64_t lba);
uint32_t calls_grade(struct device *d, uint32_t id, uint8_t health);
uint32_t calls_command(struct device *d, uint8_t security, uint8_t code, uint16_t feature, uint16_t count, uint64_t lba, uint8_t *buf,
                       size_t length);
uint32_t calls_show(const struct device *d, uint8_t security, const struct recorder_request *request, uint8_t *buf, size_t length);
struct written calls_send(const struct device *d, const struct recorder_query *query, uint32_t allocation, uint8_t *buf, size_t length);
