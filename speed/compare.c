// The comparison in plain C: what `./recorder speed` sets beside the proved program.
#include "../c/files.h"
#include "pair.h"
#include <fcntl.h>
#include <stdio.h>

static uint8_t older[MOST_LISTED + 1], newer[MOST_LISTED + 1]; // A byte more than may be compared, so that a longer file is seen.
static char text[160000];                  // Room for every comparison.

static uint64_t reach_of(const uint8_t *page)
{
    return reach(page, page + 32 * (size_t)returned_of(page, LITTLE));
}

static char *put_signed(char *to, char sign, const uint8_t *descriptor)
{
    *to++ = sign;
    *to++ = ' ';
    to = put_hex(to, id_of(descriptor, LITTLE), 8);
    *to++ = ' ';
    return put_values(to, descriptor, LITTLE);
}

// The lines of all differences up to an identifier: the two pages are merged.
static char *put_differences(char *to, uint64_t end)
{
    const uint8_t *a = older + 32, *a_end = a + 32 * (size_t)returned_of(older, LITTLE);
    const uint8_t *b = newer + 32, *b_end = b + 32 * (size_t)returned_of(newer, LITTLE);
    for (;;) {
        uint64_t i = a < a_end ? id_of(a, LITTLE) : PAST, j = b < b_end ? id_of(b, LITTLE) : PAST;
        uint64_t nearer = nearer_of(i, j);
        if (nearer > end || nearer == PAST)
            return to;
        if (i < j) {
            to = put_signed(to, '-', a);
            *to++ = '\n';
        } else if (j < i) {
            to = put_signed(to, '+', b);
            *to++ = '\n';
        } else if (is_changed(a, b)) {
            to = put_signed(to, '~', b);
            to = put_words(to, " <- ");
            to = put_values(to, a, LITTLE);
            *to++ = '\n';
        }
        if (i == nearer)
            a += 32;
        if (j == nearer)
            b += 32;
    }
}

static char *put_comparison(char *to, size_t older_length, size_t newer_length)
{
    if (check_listed(older, older_length) >= 0)
        return put_words(to, "refused 9 older\n");
    if (check(newer, newer_length, request_for(older_length)) >= 0)
        return put_words(to, "refused 9 newer\n");
    uint64_t end = nearer_of(reach_of(older), reach_of(newer));
    to = put_differences(to, end);
    if (end == PAST)
        return to;
    to = put_words(to, "compared up to ");
    to = put_hex(to, end, 8);
    *to++ = '\n';
    return to;
}

static ssize_t read_file(const char *path, uint8_t *to, size_t room)
{
    int file = open(path, O_RDONLY);
    ssize_t length = file < 0 ? -1 : read_whole(file, to, room);
    if (length < 0)
        perror(path);
    if (file >= 0)
        close(file);
    return length;
}

int main(int count, char **words)
{
    if (count != 3)
        return 2;
    ssize_t first = read_file(words[1], older, sizeof older), second = read_file(words[2], newer, sizeof newer);
    if (first < 0 || second < 0)
        return 2;
    if (write_whole(1, text, put_comparison(text, first, second) - text) < 0) {
        perror("compare: standard output");
        return 2;
    }
    return 0;
}
