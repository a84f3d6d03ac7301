// Instructions counted by the processor's trap flag: after each one the kernel, or the emulator in its place, calls `trapped`. One that repeats
// itself (`rep`) traps at every turn, and counts once.
#include <stddef.h>
#include <stdint.h>

enum { SIGTRAP = 5, SA_SIGINFO = 4 };

// As the C library of x86-64 has it.
struct sigaction {
    void (*handler)(int signal, void *info, void *context);
    uint64_t mask[16];
    int flags;
    void (*restorer)(void);
};

int sigaction(int signal, const struct sigaction *now, struct sigaction *before);

// Where a signal's context has the registers.
enum { RSP = 20, RIP = 21 };

// Each instruction from the first of a function on, until it returns, goes to `count`, with its place and the stack at it.
static uint64_t first, back, last;
static void count(uint64_t at, uint64_t stack);

static void trapped(int signal, void *info, void *context)
{
    const uint64_t *registers = context;
    uint64_t at = registers[RIP], stack = registers[RSP];
    (void)signal, (void)info;
    if (back == 0 && at == first)
        back = *(const uint64_t *)stack; // The place that it returns to.
    if (at == back)
        first = back = 0;
    if (back != 0 && at != last)
        count(at, stack);
    last = at;
}

static inline void begin_traps(void *function)
{
    static const struct sigaction now = {.handler = trapped, .flags = SA_SIGINFO};
    first = (uint64_t)function;
    back = last = 0;
    sigaction(SIGTRAP, &now, NULL);
    __asm__ volatile("pushfq; orq $0x100, (%%rsp); popfq" ::: "memory", "cc");
}

static inline void end_traps(void)
{
    __asm__ volatile("pushfq; andq $~0x100, (%%rsp); popfq" ::: "memory", "cc");
}
