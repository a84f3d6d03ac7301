// A case of `./recorder speed calls`.
#ifndef KASE_H
#define KASE_H
#include "plain.h"

enum call { STEP, MEDIA_ERROR, POWER_CUT, COMRESET, HARDWARE_RESET, SOFTWARE_RESET, REMOVE, GRADE, COMMAND, SHOW, SEND, LIST, CALLS };

enum { IDLE = -1 };
enum which { NONE, FIRST, SECOND, LAST, UNKNOWN };

struct asked {
    uint8_t security, code, health;
    enum which element; // Of a call that names one; its identifier is then in COUNT.
    uint16_t feature, count;
    uint64_t lba;
    uint8_t filter, type; // Of SEND, which begins at identifier 0.
    uint32_t allocation;
    size_t room;
    const uint8_t *page; // Of LIST, on COUNT pages: all elements of the device.
};

struct kase {
    enum call call;
    const char *path;
    int removed, step;
    struct asked asked;
    struct {
        long tables;
        struct {
            long number, percent; // One of them; the other is 0.
        } own;
        long stack;
    } limit;
};

#endif
