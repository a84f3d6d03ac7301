// Loaded before a program, counts the instructions from the first of `main` to its return, and writes their number to file 9.
#include "../c/text.h"
#include "traps.h"
#include <unistd.h>

typedef int main_function(int count, char **words, char **environment);
typedef int start_function(main_function *, int, char **, void (*)(void), void (*)(void), void (*)(void), void *);

void *dlsym(void *from, const char *name);

static main_function *program;
static uint64_t counted;

static void count(uint64_t at, uint64_t stack)
{
    (void)at, (void)stack;
    counted++;
}

static int counted_main(int count, char **words, char **environment)
{
    begin_traps(program);
    int status = program(count, words, environment);
    end_traps();
    char text[21], *end = put_decimal(text, counted);
    *end++ = '\n';
    return write(9, text, end - text) == end - text ? status : 2;
}

// In the place of the C library's, which is the next of this name.
int __libc_start_main(main_function *main, int count, char **words, void (*init)(void), void (*fini)(void), void (*ended)(void), void *stack)
{
    start_function *start = (start_function *)dlsym((void *)-1, "__libc_start_main");
    program = main;
    return start(counted_main, count, words, init, fini, ended, stack);
}
