// A line of the bench language in plain C: its words, and the numbers among them (docs/BENCH.md).
#ifndef SCRIPT_H
#define SCRIPT_H
#include <stdint.h>
#include <string.h>

enum { MOST_WORDS = 8 }; // One more than any call has.

struct word {
    const char *at;
    size_t size;
};

static inline size_t split(const char *line, size_t length, struct word *words)
{
    const char *end = line + length;
    size_t count = 0;
    while (count < MOST_WORDS) {
        while (line < end && *line == ' ')
            line++;
        if (line == end)
            break;
        words[count].at = line;
        while (line < end && *line != ' ')
            line++;
        words[count].size = line - words[count].at;
        count++;
    }
    return count;
}

static inline int is_word(struct word word, const char *name)
{
    return word.size == strlen(name) && memcmp(word.at, name, word.size) == 0;
}

static inline int digit(char c)
{
    if (c >= '0' && c <= '9')
        return c - '0';
    if (c >= 'A' && c <= 'F')
        return c - 'A' + 10;
    if (c >= 'a' && c <= 'f')
        return c - 'a' + 10;
    return -1;
}

// Stores a number that fits its field; else 0.
static inline int get_number(struct word word, uint64_t most, uint64_t *number)
{
    uint64_t value = 0;
    if (word.size > 16)
        return 0;
    for (size_t i = 0; i < word.size; i++) {
        int d = digit(word.at[i]);
        if (d < 0)
            return 0;
        value = value << 4 | d;
    }
    *number = value;
    return value <= most;
}

// Stores the numbers of the words after the name; 0 if one does not fit.
static inline int get_numbers(const struct word *words, const uint64_t *most, size_t count, uint64_t *numbers)
{
    for (size_t i = 0; i < count; i++)
        if (!get_number(words[i], most[i], &numbers[i]))
            return 0;
    return 1;
}

#endif
