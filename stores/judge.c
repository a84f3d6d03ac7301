// Whether each call stores the bytes that it is to write once, in ascending order, and no other byte of what it was lent. A trace by
// valgrind's lackey (--trace-mem=yes --trace-syscalls=yes) is judged by a file, with a line for each write to standard output that the
// traced program makes:
//
//     area          the write is of the memory that is watched
//     probe N       N bytes of the bench's lent buffer were stored before it, and nowhere else so many side by side; after two such lines
//                   that buffer is watched
//     lends WORDS   what was stored there before it is stored before each later call too, and is not the call's
//     N AT WORDS    a call before it is to have stored N bytes, from AT on: none if it is refused
//     other WORDS   nothing to judge
//
// usage: judge LINES < TRACE. Prints a line for each call with a fault, its first, and then `N calls, N with a fault`.
// Exit status: 0 no fault, 1 some, 2 trouble.
#include <fcntl.h>
#include <stdint.h>
#include <stdio.h>
#include <stdlib.h>
#include <string.h>
#include <unistd.h>

enum { BENCH_BUFFER = 65536, ROOM = 1 << 22 };

struct store {
    uint64_t at, size;
};

static uint64_t area, area_end = UINT64_MAX; // What is watched: at first all memory.
static struct store seen[ROOM];              // There, since the last write.
static struct store lending[ROOM];           // Before each call.
static size_t seen_count, lending_count;
static long calls, faulty;

static _Noreturn void trouble(const char *words, const char *line)
{
    dprintf(2, "judge: %s: %s\n", words, line);
    exit(2);
}

// ---- Lines of a file

struct file {
    int number;
    char *at, *end; // What was read and not yet taken.
    char bytes[1 << 16];
};

static struct file trace, lines;

static void enter(struct file *file, int number)
{
    file->number = number;
    file->at = file->end = file->bytes;
}

// The next line, if it is there whole, or NULL.
static char *next_line(struct file *file)
{
    char *line = file->at, *end = line;
    for (;; end++) {
        if (end == file->end) {
            size_t size = end - line;
            memmove(file->bytes, line, size);
            ssize_t got = read(file->number, file->bytes + size, sizeof file->bytes - size);
            if (got <= 0)
                return NULL;
            line = file->bytes;
            end = line + size;
            file->end = end + got;
        }
        if (*end == '\n')
            break;
    }
    *end = 0;
    file->at = end + 1;
    return line;
}

// What follows the words in a line, or NULL.
static const char *after(const char *line, const char *words)
{
    const char *at = strstr(line, words);
    return at ? at + strlen(words) : NULL;
}

static int begins(const char *line, const char *words)
{
    return after(line, words) == line + strlen(words);
}

// Two numbers that one byte separates.
static struct store get_store(const char *words, int base)
{
    char *end;
    uint64_t at = strtoull(words, &end, base);
    return (struct store){at, strtoull(end + 1, NULL, 10)};
}

// ---- Where the bench's lent buffer is

static int by_place(const void *a, const void *b)
{
    uint64_t x = ((const struct store *)a)->at, y = ((const struct store *)b)->at;
    return (x > y) - (x < y);
}

// What was stored may go on before the buffer, but ends with the last of the bytes.
static uint64_t find(uint64_t length, const char *line)
{
    uint64_t from = 0, to = 0, found = 0;
    qsort(seen, seen_count, sizeof *seen, by_place);
    for (size_t i = 0; i <= seen_count; i++) {
        struct store next = i < seen_count ? seen[i] : (struct store){UINT64_MAX, 0};
        if (next.at > to) {
            if (to - from >= length && found)
                trouble("there are two such buffers", line);
            if (to - from >= length)
                found = to - length;
            from = next.at;
        }
        if (next.at + next.size > to)
            to = next.at + next.size;
    }
    return found;
}

static void probe(uint64_t length, const char *line)
{
    static uint64_t before;
    uint64_t found = find(length, line);
    if (!found || (before && before != found))
        trouble("the lent buffer is not found", line);
    if (before) {
        area = found;
        area_end = found + BENCH_BUFFER;
    }
    before = found;
}

// ---- A call

// The place of the first byte at fault from the start of what was lent, and words on it.
static void fault(const char *line, int64_t place, const char *words)
{
    printf("%s: byte %ld %s\n", line, place, words);
    faulty++;
}

// After those of the lending, each store begins where the one before has ended.
static void judge(uint64_t length, uint64_t lent, const char *line)
{
    uint64_t next = 0;
    calls++;
    if (seen_count < lending_count || memcmp(seen, lending, lending_count * sizeof *seen) != 0)
        trouble("the buffer is not lent as before", line);
    for (size_t i = lending_count; i < seen_count; i++) {
        int64_t at = seen[i].at - lent, end = at + seen[i].size;
        if (at < 0)
            return fault(line, at, "is stored, before the buffer");
        if ((uint64_t)end > length)
            return fault(line, (uint64_t)at > length ? (uint64_t)at : length, "is stored, which is not to be written");
        if ((uint64_t)at < next)
            return fault(line, at, "is stored again");
        if ((uint64_t)at > next)
            return fault(line, next, "is stored after a later one, or not at all");
        next = end;
    }
    if (next < length)
        fault(line, next, "is not stored");
}

// ---- The trace

static void see(struct store store)
{
    if (store.at + store.size <= area || area_end <= store.at)
        return;
    if (seen_count == ROOM)
        trouble("too many stores before a write", "the trace");
    seen[seen_count++] = store;
}

static void end_write(struct store write, const char *line)
{
    if (strcmp(line, "area") == 0) {
        area = write.at;
        area_end = write.at + write.size;
    } else if (begins(line, "probe ")) {
        probe(strtoull(line + strlen("probe "), NULL, 10), line);
    } else if (begins(line, "lends ")) {
        memcpy(lending, seen, seen_count * sizeof *seen);
        lending_count = seen_count;
    } else if (!begins(line, "other ")) {
        struct store call = get_store(line, 10);
        judge(call.at, area + call.size, line);
    }
    seen_count = 0;
}

// Whether this is the line by which the trace ends, of a program that ended well.
static int take(const char *event)
{
    const char *words;
    if (event[0] == ' ' && (event[1] == 'S' || event[1] == 'M'))
        see(get_store(event + 3, 16));
    else if (event[0] == 'S' && (words = after(event, " sys_write ( 1, "))) {
        const char *line = next_line(&lines);
        if (!line)
            trouble("a write that no line is for", event);
        end_write(get_store(words, 16), line);
    } else if (event[0] == '=' && (words = after(event, "Exit code: ")))
        return strtoull(words, NULL, 10) == 0;
    return 0;
}

int main(int count, char **words)
{
    const char *event, *left;
    int is_whole = 0, number = count == 2 ? open(words[1], O_RDONLY) : -1;
    if (number < 0)
        trouble("cannot be read", count == 2 ? words[1] : "usage: judge LINES < TRACE");
    enter(&lines, number);
    enter(&trace, 0);
    while ((event = next_line(&trace)))
        is_whole |= take(event);
    if ((left = next_line(&lines)))
        trouble("the trace ends before", left);
    if (!is_whole)
        trouble("the program did not end well, or the trace is cut", words[1]);
    printf("%ld calls, %ld with a fault\n", calls, faulty);
    return faulty > 0;
}
