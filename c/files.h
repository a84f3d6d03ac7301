// Files read and written whole.
#ifndef FILES_H
#define FILES_H
#include <stdint.h>
#include <unistd.h>

// Reads to the end, or until the buffer is full: how many bytes, or -1.
static inline ssize_t read_whole(int file, uint8_t *to, size_t room)
{
    size_t size = 0;
    while (size < room) {
        ssize_t got = read(file, to + size, room - size);
        if (got < 0)
            return -1;
        if (got == 0)
            break;
        size += got;
    }
    return size;
}

// 0, or -1 if not all of it was written.
static inline int write_whole(int file, const char *from, size_t size)
{
    while (size > 0) {
        ssize_t got = write(file, from, size);
        if (got < 0)
            return -1;
        from += got;
        size -= got;
    }
    return 0;
}

#endif
