// Numbers of 2, 4 or 8 bytes in either byte order.
#ifndef ORDER_H
#define ORDER_H
#include <stdint.h>
#include <string.h>

enum order { LITTLE, BIG }; // ATA's, as x86-64 has it, and SCSI's.

static inline uint64_t turned(uint64_t number, size_t size, enum order order)
{
    return order == LITTLE ? number : __builtin_bswap64(number) >> (64 - 8 * size);
}

static inline uint64_t load(const uint8_t *from, size_t size, enum order order)
{
    uint64_t number = 0;
    memcpy(&number, from, size);
    return turned(number, size, order);
}

static inline void store(uint8_t *to, uint64_t number, size_t size, enum order order)
{
    number = turned(number, size, order);
    memcpy(to, &number, size);
}

#endif
