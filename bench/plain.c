/* The sweep program's job in plain C, to compare its speed with. The algorithm of docs/SCOPE.md as written: one stack for each block
   size, most recent first; a walk that leaves at the block it seeks; the depth at each s by the trailing zeros of the xor; a flush
   that zeroes what was used.
   It prints the same table, or the refusals 1, 2, 5, 6, 10 and 14 to 17. It has no refusal 26, and nothing here is proved.

     gcc -O2 -o plain bench/plain.c
     ./plain <input                 the table
     ./plain --read-only <input     reads and parses every line, takes none: the first four lines of the table */
#include <stdint.h>
#include <stdio.h>
#include <stdlib.h>
#include <string.h>
#include <unistd.h>

enum { CHUNK = 65536, LINE = 255, MOST_SIZES = 8, MOST_S = 14, MOST_WAYS = 16, MOST_ENTRIES = 8192 };
enum { ALL = 1 << 0 | 1 << 1 | 1 << 2 | 1 << 3, FETCH = 1 << 2, DATA = 1 << 0 | 1 << 1 }; /* a bit for each label */
enum { FLUSH_LABEL = 4 };
enum { ORDER, TRACE }; /* the parts of the input */

static uint64_t bmin, bmax, smax, ways, room, refs; /* the order */
static unsigned kinds = ALL;

static uint32_t stacks[MOST_ENTRIES], used[MOST_SIZES];
static uint32_t counts[MOST_SIZES * (MOST_S + 1) * MOST_WAYS];
static uint64_t taken, skipped, flushes, line_number;

static void refuse(int number)
{
    printf("refused=%d line=%llu\n", number, (unsigned long long)line_number);
    exit(0);
}

static void refuse_at(int number, int column)
{
    printf("refused=%d line=%llu column=%d\n", number, (unsigned long long)line_number, column);
    exit(0);
}

static void refuse_long(int part)
{
    if (part == TRACE)
        refuse_at(17, LINE + 1);
    refuse(10);
}

/* Reading: a chunk of the input, and one line of it. */

static uint8_t chunk[CHUNK], line[LINE];
static size_t chunk_at, chunk_end;

/* The length of the next line, now in the buffer without its LF; -1 at the end of the input. */
static int next_line(int part)
{
    int length = 0;
    line_number++;
    for (;;) {
        if (chunk_at == chunk_end) {
            ssize_t got = read(STDIN_FILENO, chunk, CHUNK);
            if (got < 0) {
                perror("plain: read");
                exit(2);
            }
            chunk_at = 0;
            chunk_end = got;
            if (got == 0)
                return length > 0 ? length : -1;
        }
        uint8_t byte = chunk[chunk_at++];
        if (byte == '\n')
            return length;
        if (length == LINE)
            refuse_long(part);
        line[length++] = byte;
    }
}

/* The order lines. */

static int line_is(int length, const char *text)
{
    return length == (int)strlen(text) && memcmp(line, text, length) == 0;
}

static uint64_t order_number(const char *name)
{
    int length = next_line(ORDER), at = strlen(name), digits = length - at;
    if (length < at || memcmp(line, name, at) != 0 || digits < 1 || digits > 10 || (line[at] == '0' && digits > 1))
        refuse(10);
    uint64_t value = 0;
    for (; at < length; at++) {
        if (line[at] < '0' || line[at] > '9')
            refuse(10);
        value = value * 10 + (line[at] - '0');
    }
    return value;
}

static void read_order(void)
{
    bmin = order_number("bmin=");
    bmax = order_number("bmax=");
    smax = order_number("smax=");
    ways = order_number("ways=");
    room = order_number("room=");
    refs = order_number("refs=");
    int length = next_line(ORDER);
    if (length >= 6 && memcmp(line, "kinds=", 6) == 0) {
        if (line_is(length, "kinds=all"))
            kinds = ALL;
        else if (line_is(length, "kinds=fetch"))
            kinds = FETCH;
        else if (line_is(length, "kinds=data"))
            kinds = DATA;
        else
            refuse(10);
        length = next_line(ORDER);
    }
    if (!line_is(length, "begin=din"))
        refuse(10);
    if (bmin < 2 || bmax > 12 || bmin > bmax || bmax - bmin >= MOST_SIZES || smax > MOST_S || ways < 1 || ways > MOST_WAYS ||
        room < 1 || room > 1048576 || refs < 1 || refs > 4000000000)
        refuse(1);
    if ((bmax - bmin + 1) * room > MOST_ENTRIES)
        refuse(2);
}

/* The trace lines. */

static int is_blank(uint8_t byte) { return byte == ' ' || byte == '\t'; }

/* The value of a hex digit, or -1. */
static int hex_value(uint8_t byte)
{
    if (byte >= '0' && byte <= '9')
        return byte - '0';
    byte |= 0x20;
    return byte >= 'a' && byte <= 'f' ? byte - 'a' + 10 : -1;
}

/* Refuses the line in the buffer, which is no trace line, at the first byte that cannot stand there, or one past the end. */
static void refuse_line(int length)
{
    int at = 1, digits = 0;
    if (length < 1 || line[0] < '0' || line[0] > '4')
        refuse_at(14, 1);
    if (length < 2 || !is_blank(line[1]))
        refuse_at(15, 2);
    while (at < length && is_blank(line[at]))
        at++;
    for (; at < length && digits < 8 && hex_value(line[at]) >= 0; at++)
        digits++;
    refuse_at(16, at + 1);
}

/* The label of the line in the buffer, and its address. */
static unsigned parse(int length, uint32_t *address)
{
    int at = 1, digits = 0, digit;
    uint32_t value = 0;
    if (length < 3 || line[0] < '0' || line[0] > '4' || !is_blank(line[1]))
        refuse_line(length);
    while (at < length && is_blank(line[at]))
        at++;
    for (; at < length && (digit = hex_value(line[at])) >= 0; at++, digits++)
        value = value << 4 | digit;
    if (digits < 1 || digits > 8 || (at < length && !is_blank(line[at])))
        refuse_line(length);
    *address = value;
    return line[0] - '0';
}

/* The stacks. */

/* One reference at one block size. */
static void touch(unsigned size, uint32_t block)
{
    uint32_t *stack = stacks + size * room, length = used[size], place, last_s = smax, depth[MOST_S + 1] = {0};
    for (place = 0; place < length && stack[place] != block; place++) {
        uint32_t shared = __builtin_ctz(stack[place] ^ block);
        if (shared > last_s)
            shared = last_s;
        for (uint32_t s = 0; s <= shared; s++)
            depth[s]++;
    }
    if (place < length) {
        uint32_t *count = counts + size * (last_s + 1) * ways;
        for (uint32_t s = 0; s <= last_s; s++, count += ways)
            if (depth[s] < ways)
                count[depth[s]]++;
    } else if (length == room) {
        refuse(6); /* counts may have been raised, but none is printed now */
    } else {
        used[size]++;
    }
    memmove(stack + 1, stack, place * sizeof *stack);
    stack[0] = block;
}

/* Every stack becomes empty; its room is zero and free again. */
static void flush(void)
{
    for (unsigned size = 0; size <= bmax - bmin; size++) {
        memset(stacks + size * room, 0, used[size] * sizeof *stacks);
        used[size] = 0;
    }
    flushes++;
}

static void print_table(int read_only)
{
    printf("edition=2\nrefs=%llu\nskipped=%llu\nflushes=%llu\n", (unsigned long long)taken, (unsigned long long)skipped,
           (unsigned long long)flushes);
    const uint32_t *count = counts;
    for (unsigned b = bmin; b <= bmax && !read_only; b++)
        for (unsigned s = 0; s <= smax; s++) {
            uint64_t misses = taken;
            for (unsigned w = 1; w <= ways; w++) {
                misses -= *count++;
                printf("b=%u s=%u w=%u misses=%llu\n", b, s, w, (unsigned long long)misses);
            }
        }
}

int main(int argc, char **argv)
{
    int read_only = argc > 1 && strcmp(argv[1], "--read-only") == 0, length;
    uint32_t address;
    read_order();
    while ((length = next_line(TRACE)) >= 0) {
        unsigned label = parse(length, &address);
        if (label == FLUSH_LABEL) {
            flush();
            continue;
        }
        if (!(kinds >> label & 1)) {
            skipped++;
            continue;
        }
        if (taken == refs)
            refuse(5);
        for (unsigned size = 0; size <= bmax - bmin && !read_only; size++)
            touch(size, address >> (bmin + size));
        taken++;
    }
    print_table(read_only);
}
