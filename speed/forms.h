// The calls that C makes: the library's, and those in plain C.
#include "kase.h"
#include "plain.h"

struct form {
    uint8_t (*events[SOFTWARE_RESET + 1])(struct recorder_device *d);
    uint8_t (*remove)(struct recorder_device *d, uint8_t security, uint16_t feature, uint16_t count, uint64_t lba);
    uint8_t (*grade)(struct recorder_device *d, uint32_t id, uint8_t health);
    uint8_t (*command)(struct recorder_device *d, uint8_t security, uint8_t code, uint16_t feature, uint16_t count, uint64_t lba,
                       uint8_t *buf, size_t size);
    uint8_t (*show)(const struct recorder_device *d, uint8_t security, struct recorder_request request, uint8_t *buf, size_t size);
    struct recorder_written (*send)(const struct recorder_device *d, struct recorder_query query, uint32_t allocation, uint8_t *buf,
                                    size_t size);
    struct recorder_written (*list)(const uint8_t *page, size_t size, uint8_t *out, size_t room);
};

static const struct form library = {
    {recorder_step, recorder_media_error, recorder_power_cut, recorder_comreset, recorder_hardware_reset, recorder_software_reset},
    NULL, // It has 7Ch in its front call alone.
    recorder_grade,
    recorder_command,
    recorder_show,
    recorder_send,
    recorder_list,
};

static const struct form plain = {
    {plain_step, plain_media_error, plain_power_cut, plain_comreset, plain_hardware_reset, plain_software_reset},
    plain_remove,
    plain_grade,
    plain_command,
    plain_show,
    plain_send,
    plain_list,
};

// Where a call begins; NULL if there is none.
static void *start_of(const struct form *form, enum call call)
{
    switch (call) {
    case REMOVE:
        return form->remove;
    case GRADE:
        return form->grade;
    case COMMAND:
        return form->command;
    case SHOW:
        return form->show;
    case SEND:
        return form->send;
    case LIST:
        return form->list;
    default:
        return form->events[call];
    }
}

static struct recorder_written call_form(const struct form *form, enum call call, const struct asked *a, struct recorder_device *d,
                                         uint8_t *page)
{
    struct recorder_request request = {a->feature, a->count, a->lba};
    struct recorder_query query = {a->filter, a->type, 0};
    struct recorder_written w = {0};
    switch (call) {
    case REMOVE:
        w.answer = form->remove(d, a->security, a->feature, a->count, a->lba);
        break;
    case GRADE:
        w.answer = form->grade(d, a->count, a->health);
        break;
    case COMMAND:
        w.answer = form->command(d, a->security, a->code, a->feature, a->count, a->lba, page, a->room);
        break;
    case SHOW:
        w.answer = form->show(d, a->security, request, page, a->room);
        break;
    case SEND:
        w = form->send(d, query, a->allocation, page, a->room);
        break;
    case LIST:
        w = form->list(a->page, 512 * (size_t)a->count, page, a->room);
        break;
    default:
        w.answer = form->events[call](d);
    }
    return w;
}
