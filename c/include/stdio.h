#ifndef STDIO_H
#define STDIO_H

int printf(const char *form, ...);
int dprintf(int file, const char *form, ...);
void perror(const char *what);

#endif
