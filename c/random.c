// Random calls through the library and through plain C, side by side: after each call answers, records and buffers have to be the same.
// usage: random [reach | trace] SEED calls|seconds NUMBER
//
// A case is some hundred calls, all of which come from its seed; the next case has the next seed. The first difference is shown with the
// seed of its case, and `random trace SEED calls 1` shows the calls of that case. `reach` prints what the calls have reached.
// Exit status: 0 no difference, 1 a difference, 2 wrong words.
#include "random/device.h"
#include "random/host.h"
#include <signal.h>
#include <time.h>

enum { CALLS = 500 }; // Of a case.

// ---- The mix

// How often each is done: at rest, and while a removal is under way.
static const struct {
    void (*act)(void);
    int at_rest, under_way;
} mix[] = {
    {call_make, 30, 3},
    {call_remove, 120, 10},
    {call_step, 10, 250},
    {call_media_error, 5, 25},
    {call_power_cut, 10, 25},
    {call_comreset, 5, 5},
    {call_hardware_reset, 5, 5},
    {call_software_reset, 5, 5},
    {call_grade, 30, 15},
    {call_status, 30, 20},
    {call_media, 30, 20},
    {call_other, 20, 30},
    {call_wild, 10, 10},
    {call_show, 10, 10},
    {call_send, 20, 20},
    {call_sense, 5, 5},
    {junk, 3, 4},
    {make_up, 10, 10},
    {draw_kept, 1, 1},
    {change_kept, 10, 10},
    {call_read, 10, 10},
    {call_descriptor, 5, 5},
    {call_scsi_read, 10, 10},
    {call_scsi_descriptor, 5, 5},
    {call_list, 2, 2},
    {call_scsi_list, 2, 2},
    {call_to_scsi, 6, 6},
    {call_to_ata, 6, 6},
    {call_next, 5, 5},
    {call_next_request, 1, 1},
    {call_open, 5, 5},
    {call_differences, 5, 5},
    {call_span, 1, 1},
};

enum { ACTS = sizeof mix / sizeof *mix };

static int weight(size_t i, int is_under_way) { return is_under_way ? mix[i].under_way : mix[i].at_rest; }

static void act(void)
{
    int is_under_way = ours.device.note_full != 0, sum = 0;
    size_t i = 0;
    for (size_t k = 0; k < ACTS; k++)
        sum += weight(k, is_under_way);
    for (int left = below(sum); left >= weight(i, is_under_way); i++)
        left -= weight(i, is_under_way);
    mix[i].act();
}

static void run_case(uint64_t number)
{
    case_seed = number;
    case_calls = 0;
    seed(number);
    memset(&ours, 0xA5, sizeof ours);
    memset(&theirs, 0xA5, sizeof theirs);
    is_junk = 1;
    make_up();
    call_make();
    while (case_calls < CALLS)
        act();
    compare_whole();
}

// ---- The run

static void show_signal(int number)
{
    printf("difference: signal %d", number);
    end_case();
}

static void watch(void)
{
    static const int numbers[] = {SIGABRT, SIGBUS, SIGFPE, SIGILL, SIGSEGV};
    for (size_t i = 0; i < sizeof numbers / sizeof *numbers; i++)
        signal(numbers[i], show_signal);
}

// A word of digits.
static int get_decimal(const char *word, uint64_t *number)
{
    *number = 0;
    for (const char *at = word; *at; at++) {
        if (*at < '0' || *at > '9')
            return 0;
        *number = 10 * *number + *at - '0';
    }
    return *word != 0;
}

static int is_over(int is_timed, uint64_t most, time_t start)
{
    return (is_timed ? (uint64_t)(time(NULL) - start) : reach.calls) >= most;
}

int main(int count, char **words)
{
    uint64_t number, most;
    time_t start = time(NULL);
    int is_shown = count == 5 && strcmp(words[1], "reach") == 0;
    is_traced = count == 5 && strcmp(words[1], "trace") == 0;
    words += is_shown || is_traced;
    count -= is_shown || is_traced;
    if (count != 4 || !get_decimal(words[1], &number) || !get_decimal(words[3], &most) ||
        (strcmp(words[2], "calls") && strcmp(words[2], "seconds"))) {
        dprintf(2, "usage: random [reach | trace] SEED calls|seconds NUMBER\n");
        return 2;
    }
    watch();
    while (!is_over(strcmp(words[2], "seconds") == 0, most, start))
        run_case(number++);
    if (is_shown)
        print_reach();
    printf("calls %lu differences 0\n", reach.calls);
    return 0;
}
