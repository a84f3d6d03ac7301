#ifndef UNISTD_H
#define UNISTD_H
#include <stddef.h>

typedef __PTRDIFF_TYPE__ ssize_t;

int close(int file);
ssize_t read(int file, void *to, size_t size);
ssize_t write(int file, const void *from, size_t size);

#endif
