#ifndef FCNTL_H
#define FCNTL_H

enum { O_RDONLY = 0, O_WRONLY = 1, O_CREAT = 0100, O_TRUNC = 01000 };

int open(const char *path, int flags, ...);

#endif
