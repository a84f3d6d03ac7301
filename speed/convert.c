// The conversion in plain C: what `./recorder speed` sets beside the proved program. A page to SCSI data, or with a number SCSI data to so
// many pages; a refusal is words on standard error.
#include "../c/files.h"
#include "turn.h"
#include <stdio.h>

static uint8_t input[MOST_LISTED + 1]; // A byte more than may be converted, so that a longer input is seen.
static uint8_t output[65536];

static struct recorder_converted convert(size_t length, const char *pages)
{
    if (length > MOST_LISTED)
        return refused_at(MOST_LISTED);
    if (pages)
        return to_ata(input, length, (struct recorder_query){0}, decimal(pages), output, sizeof output);
    return to_scsi(input, length, request_for(length), output, sizeof output);
}

static int refuse(size_t place)
{
    char text[40];
    return write_whole(2, text, put_refusal(text, place) - text) < 0 ? 2 : 0;
}

int main(int count, char **words)
{
    ssize_t length = read_whole(0, input, sizeof input);
    if (length < 0) {
        perror("convert: standard input");
        return 2;
    }
    struct recorder_converted c = convert(length, count > 1 ? words[1] : NULL);
    if (c.answer == 9)
        return refuse(c.place);
    if (c.answer == 7)
        return 2; // More pages than there is room for.
    if (write_whole(1, (const char *)output, c.count) < 0) {
        perror("convert: standard output");
        return 2;
    }
    return 0;
}
