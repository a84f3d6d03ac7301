// The library's calls in plain C, over its records. `library.h` gives them the library's names.
#ifndef PLAIN_H
#define PLAIN_H
#include "../c/recorder.h"

// The next step of the step list.
enum position { WORK_1, WORK_2, WORK_3, WORK_4, WORK_5, WIND_1, WIND_2, WIND_3, WIND_4 };

// ---- The device (plain.c)

uint8_t plain_make(struct recorder_device *d, const struct recorder_element *list, size_t count, uint16_t limit);
uint8_t plain_command(struct recorder_device *d, uint8_t security, uint8_t code, uint16_t feature, uint16_t count, uint64_t lba,
                      uint8_t *buf, size_t size);
uint8_t plain_step(struct recorder_device *d);
uint8_t plain_media_error(struct recorder_device *d);
uint8_t plain_power_cut(struct recorder_device *d);
uint8_t plain_comreset(struct recorder_device *d);
uint8_t plain_hardware_reset(struct recorder_device *d);
uint8_t plain_software_reset(struct recorder_device *d);
uint8_t plain_grade(struct recorder_device *d, uint32_t id, uint8_t health);
uint8_t plain_show(const struct recorder_device *d, uint8_t security, struct recorder_request request, uint8_t *buf, size_t size);
struct recorder_written plain_send(const struct recorder_device *d, struct recorder_query query, uint32_t allocation, uint8_t *buf,
                                   size_t size);

// 7Ch by itself: a lent call, but none of the library's.
uint8_t plain_remove(struct recorder_device *d, uint8_t security, uint16_t feature, uint16_t count, uint64_t lba);

// ---- The host (host.c)

struct recorder_sense plain_sense(uint8_t number);
struct recorder_reading plain_read(const uint8_t *page, size_t size, struct recorder_request request);
struct recorder_slot plain_descriptor(const uint8_t *page, size_t size, uint32_t k);
struct recorder_reading plain_scsi_read(const uint8_t *data, size_t size, struct recorder_query query);
struct recorder_slot plain_scsi_descriptor(const uint8_t *data, size_t size, uint32_t k);
struct recorder_written plain_list(const uint8_t *page, size_t size, uint8_t *out, size_t room);
struct recorder_written plain_scsi_list(const uint8_t *data, size_t size, uint8_t *out, size_t room);
struct recorder_converted plain_to_scsi(const uint8_t *page, size_t size, struct recorder_request request, uint8_t *out, size_t room);
struct recorder_converted plain_to_ata(const uint8_t *data, size_t size, struct recorder_query query, uint16_t pages, uint8_t *out,
                                       size_t room);
struct recorder_move plain_next(const uint8_t *page, size_t size, struct recorder_request request);
struct recorder_request plain_next_request(struct recorder_request request, uint32_t start, uint16_t pages);
struct recorder_opening plain_open(const uint8_t *older, size_t older_size, const uint8_t *newer, size_t newer_size,
                                   struct recorder_request request);
struct recorder_difference plain_next_difference(const uint8_t *older, size_t older_size, const uint8_t *newer, size_t newer_size,
                                                 struct recorder_cursor from);
struct recorder_span plain_span(const uint8_t *older, size_t older_size, const uint8_t *newer, size_t newer_size,
                                struct recorder_difference difference);

#endif
