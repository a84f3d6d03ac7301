// Writes the status pages and the SCSI data that the programs are counted on, of a size: pages PAGES ELEMENTS. The same on every run.
#include "../c/files.h"
#include "turn.h"
#include <fcntl.h>
#include <stdio.h>

static uint8_t page[65536], data[sizeof page];
static size_t pages, elements;
static uint64_t state;

// A number below `most`, as if by chance.
static uint64_t chance(uint64_t most)
{
    state = state * 6364136223846793005ull + 1442695040888963407ull;
    return (state >> 11) % most;
}

// Of 9 digits; or of 1 to 16, and about every tenth all ones.
static uint64_t capacity(int is_mixed)
{
    uint64_t most = 10;
    if (!is_mixed)
        return 100000000 + chance(900000000);
    if (chance(10) == 0)
        return ~0ull;
    for (uint64_t digits = 1 + chance(16); digits > 1; digits--)
        most *= 10;
    return chance(most);
}

// Of every `part` elements one has another health, or is gone; 0: none.
static void make(int is_mixed, size_t changed, size_t gone)
{
    size_t count = 0;
    uint32_t id = 0;
    state = 1;
    memset(page, 0, sizeof page);
    for (size_t i = 0; i < elements; i++) {
        uint8_t *to = page + 32 + 32 * count;
        id += 1 + chance(1000000);
        store(to + 4, id, 4, LITTLE);
        to[14] = chance(4) == 0 ? 2 : 1;
        to[15] = chance(0xCF) + (changed && i % changed == 0);
        store(to + 16, capacity(is_mixed), 8, LITTLE);
        if (!gone || i % gone != 0)
            count++;
        else
            memset(to, 0, 32);
    }
    store(page, count, 4, LITTLE);
    store(page + 4, count, 4, LITTLE);
    store(page + 12, 2, 2, LITTLE);
}

static int write_file(const char *name, const uint8_t *bytes, size_t size)
{
    int file = open(name, O_WRONLY | O_CREAT | O_TRUNC, 0600);
    if (file < 0 || write_whole(file, (const char *)bytes, size) < 0) {
        perror(name);
        return 1;
    }
    return close(file) != 0;
}

static int write_page(const char *name)
{
    return write_file(name, page, 512 * pages);
}

// So many bytes of the page as SCSI data.
static int write_data(const char *name, size_t size)
{
    turn_list(data, page, elements);
    return write_file(name, data, size);
}

int main(int count, char **words)
{
    int trouble = 0;
    if (count != 3)
        return 2;
    pages = decimal(words[1]);
    elements = decimal(words[2]);
    make(0, 0, 0);
    trouble |= write_page("older");
    trouble |= write_data("data", 32 + 32 * elements);
    trouble |= write_data("data-cut", 32 + 32 * (elements / 2) + 16); // Through the descriptor in the middle.
    page[32 * elements + 13] |= 1; // The restoration bit of the last descriptor, which is not at FFh.
    trouble |= write_page("refused");
    trouble |= write_data("data-refused", 32 + 32 * elements);
    make(0, 10, 0);
    trouble |= write_page("tenth");
    make(0, 2, 0);
    trouble |= write_page("half");
    make(0, 1, 0);
    trouble |= write_page("all");
    make(0, 0, 10);
    trouble |= write_page("gone");
    make(1, 0, 0);
    trouble |= write_page("mixed");
    make(1, 2, 0);
    trouble |= write_page("mixed-half");
    return trouble ? 2 : 0;
}
