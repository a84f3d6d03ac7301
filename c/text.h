// Words and numbers as text: each is stored from a place on, and answers where it ends. And a number from its digits.
#ifndef TEXT_H
#define TEXT_H
#include <stdint.h>
#include <string.h>

static inline char *put_words(char *to, const char *words)
{
    size_t size = strlen(words);
    memcpy(to, words, size);
    return to + size;
}

static inline char *put_hex(char *to, uint32_t number, int digits)
{
    for (int shift = 4 * (digits - 1); shift >= 0; shift -= 4)
        *to++ = "0123456789ABCDEF"[number >> shift & 15];
    return to;
}

static inline char *put_decimal(char *to, uint64_t number)
{
    char digits[20];
    char *first = digits + sizeof digits;
    do {
        *--first = '0' + number % 10;
        number /= 10;
    } while (number > 0);
    size_t size = digits + sizeof digits - first;
    memcpy(to, first, size);
    return to + size;
}

// The number of a word of digits.
static inline size_t decimal(const char *word)
{
    size_t number = 0;
    for (; *word; word++)
        number = 10 * number + *word - '0';
    return number;
}

// Words and a number, as a line.
static inline char *put_numbered(char *to, const char *words, uint64_t number)
{
    to = put_words(to, words);
    to = put_decimal(to, number);
    *to++ = '\n';
    return to;
}

#endif
