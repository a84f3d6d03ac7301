// The listing in plain C: what `./recorder speed` sets beside the proved program.
#include "../c/files.h"
#include "page.h"
#include <stdio.h>

static uint8_t page[MOST_LISTED + 1]; // A byte more than may be listed, so that a longer input is seen.
static char text[80000];    // Room for every listing.

static char *put_listing(char *to, size_t length)
{
    ssize_t offence = check_listed(page, length);
    if (offence >= 0)
        return put_refusal(to, offence);
    to = put_header(to, page, LITTLE);
    return put_list(to, page, returned_of(page, LITTLE), LITTLE);
}

int main(void)
{
    ssize_t length = read_whole(0, page, sizeof page);
    if (length < 0) {
        perror("list: standard input");
        return 2;
    }
    if (write_whole(1, text, put_listing(text, length) - text) < 0) {
        perror("list: standard output");
        return 2;
    }
    return 0;
}
