#ifndef STDLIB_H
#define STDLIB_H
#include <stddef.h>

_Noreturn void exit(int status);
void qsort(void *list, size_t count, size_t size, int (*order)(const void *a, const void *b));
unsigned long long strtoull(const char *digits, char **end, int base);

#endif
