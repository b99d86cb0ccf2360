/* Makes the library calls that standard input names, one per line, and prints what each hands back, whole.
 *
 *   tables STATE STACKS COUNTS                the slices that the calls after it are lent; prints nothing
 *   open BMIN BMAX SMAX WAYS ROOM REFS
 *   take ADDRESS
 *   flush
 *   misses B S W MISSES
 *   ratios B S W RATIOS                       entries are the bits of a double, as a number
 *   strip B S LIST FILTER OUT KEPT
 *
 * Numbers are decimal. A slice is its length and then its entries. It lies between guard bytes, and an empty one has the
 * pointer NULL. So does what has a fixed size (STATE 15 entries, MISSES and KEPT 1, RATIOS 2), of which a call is handed
 * the pointer alone; before a `tables` line the state is of zeros and the tables are empty. A line of output is the answer and then each slice that the call was lent, by name, in the form above;
 * it ends in "outside touched" where a guard byte has changed.
 */
#include <stdint.h>
#include <stdio.h>
#include <stdlib.h>
#include <string.h>

#include "kkaeduron.h"

#define GUARD_BYTES 64
#define GUARD 0xa5

struct slice {
    unsigned char *memory; /* GUARD_BYTES, the entries, GUARD_BYTES */
    size_t width;          /* bytes of an entry */
    size_t length;
};

static struct slice state = {0, 4, 0}, stacks = {0, 4, 0}, counts = {0, 4, 0};

static void stop(const char *reason)
{
    fprintf(stderr, "library_driver: %s\n", reason);
    exit(2);
}

/* ---- input: words and numbers, separated by blanks or line ends */

static int next_byte(void)
{
    static unsigned char buffer[65536];
    static size_t at, end;
    if (at == end) {
        at = 0;
        end = fread(buffer, 1, sizeof buffer, stdin);
        if (end == 0)
            return EOF;
    }
    return buffer[at++];
}

/* The next word; false where the input has ended. */
static int next_word(char *word, size_t room)
{
    size_t n = 0;
    int byte = next_byte();
    while (byte == ' ' || byte == '\n')
        byte = next_byte();
    for (; byte != EOF && byte != ' ' && byte != '\n'; byte = next_byte()) {
        if (n + 1 == room)
            stop("a word is too long");
        word[n++] = (char)byte;
    }
    word[n] = 0;
    return n != 0;
}

static uint64_t next_number(void)
{
    char word[32];
    uint64_t number = 0;
    if (!next_word(word, sizeof word))
        stop("a number is missing");
    for (const char *digit = word; *digit; digit++) {
        if (*digit < '0' || *digit > '9')
            stop("a number is malformed");
        number = number * 10 + (uint64_t)(*digit - '0');
    }
    return number;
}

static uint32_t next_narrow(void)
{
    uint64_t number = next_number();
    if (number > UINT32_MAX)
        stop("a number is above 32 bits");
    return (uint32_t)number;
}

/* ---- slices between guard bytes */

static void *entries(const struct slice *slice)
{
    return slice->length ? slice->memory + GUARD_BYTES : NULL;
}

/* A slice of zeros. */
static struct slice new_slice(size_t width, size_t length)
{
    struct slice slice = {malloc(length * width + 2 * GUARD_BYTES), width, length};
    if (!slice.memory)
        stop("no memory");
    memset(slice.memory, GUARD, length * width + 2 * GUARD_BYTES);
    memset(slice.memory + GUARD_BYTES, 0, length * width);
    return slice;
}

static struct slice next_slice(size_t width)
{
    struct slice slice = new_slice(width, next_number());
    for (size_t i = 0; i < slice.length; i++) {
        uint64_t wide = width == 8 ? next_number() : 0;
        uint32_t narrow = width == 8 ? 0 : next_narrow();
        memcpy(slice.memory + GUARD_BYTES + i * width, width == 8 ? (void *)&wide : (void *)&narrow, width);
    }
    return slice;
}

/* What has a fixed size: a slice of that length. */
static struct slice next_fixed(size_t width, size_t length)
{
    struct slice slice = next_slice(width);
    if (slice.length != length)
        stop("what has a fixed size has another");
    return slice;
}

static int is_touched_outside(const struct slice *slice)
{
    if (!slice->memory)
        return 0;
    const unsigned char *after = slice->memory + GUARD_BYTES + slice->length * slice->width;
    for (size_t i = 0; i < GUARD_BYTES; i++)
        if (slice->memory[i] != GUARD || after[i] != GUARD)
            return 1;
    return 0;
}

/* ---- output */

static void print_number(uint64_t number)
{
    char digits[21];
    size_t at = sizeof digits;
    do
        digits[--at] = (char)('0' + number % 10);
    while (number /= 10);
    digits[--at] = ' ';
    fwrite(digits + at, 1, sizeof digits - at, stdout);
}

static void print_slice(const char *name, const struct slice *slice)
{
    fputs(name, stdout);
    print_number(slice->length);
    for (size_t i = 0; i < slice->length; i++) {
        const unsigned char *entry = slice->memory + GUARD_BYTES + i * slice->width;
        uint64_t wide;
        uint32_t narrow;
        memcpy(&wide, entry, slice->width == 8 ? 8 : 0);
        memcpy(&narrow, entry, 4);
        print_number(slice->width == 8 ? wide : narrow);
    }
    if (is_touched_outside(slice))
        fputs(" outside touched", stdout);
}

static void print_answer(uint32_t answer)
{
    fputs("answer", stdout);
    print_number(answer);
}

/* ---- the calls */

static void call_open(void)
{
    uint32_t numbers[6];
    for (size_t i = 0; i < 6; i++)
        numbers[i] = next_narrow();
    print_answer(kkaeduron_open(numbers[0], numbers[1], numbers[2], numbers[3], numbers[4], numbers[5], entries(&state),
                                entries(&stacks), stacks.length, entries(&counts), counts.length));
    print_slice(" state", &state);
    print_slice(" stacks", &stacks);
    print_slice(" counts", &counts);
}

static void call_take(void)
{
    uint32_t address = next_narrow();
    print_answer(kkaeduron_take(entries(&state), entries(&stacks), stacks.length, entries(&counts), counts.length,
                                address));
    print_slice(" state", &state);
    print_slice(" stacks", &stacks);
    print_slice(" counts", &counts);
}

static void call_flush(void)
{
    print_answer(kkaeduron_flush(entries(&state), entries(&stacks), stacks.length));
    print_slice(" state", &state);
    print_slice(" stacks", &stacks);
}

static void call_question(int is_ratios)
{
    uint32_t b = next_narrow(), s = next_narrow(), w = next_narrow();
    struct slice value = is_ratios ? next_fixed(8, KKAEDURON_BOTH_RATIOS) : next_fixed(4, 1);
    if (is_ratios)
        print_answer(kkaeduron_ratios(entries(&state), entries(&counts), counts.length, b, s, w, entries(&value)));
    else
        print_answer(kkaeduron_misses(entries(&state), entries(&counts), counts.length, b, s, w, entries(&value)));
    print_slice(is_ratios ? " ratios" : " misses", &value);
    print_slice(" state", &state);
    print_slice(" counts", &counts);
    free(value.memory);
}

static void call_strip(void)
{
    uint32_t b = next_narrow(), s = next_narrow();
    struct slice list = next_slice(4), filter = next_slice(4), out = next_slice(4);
    struct slice kept = next_fixed(sizeof(size_t), 1);
    print_answer(kkaeduron_strip(entries(&list), list.length, b, s, entries(&filter), filter.length, entries(&out),
                                 out.length, entries(&kept)));
    print_slice(" kept", &kept);
    print_slice(" list", &list);
    print_slice(" filter", &filter);
    print_slice(" out", &out);
    free(list.memory);
    free(filter.memory);
    free(out.memory);
    free(kept.memory);
}

static void lend_tables(void)
{
    free(state.memory);
    free(stacks.memory);
    free(counts.memory);
    state = next_fixed(4, KKAEDURON_STATE_NUMBERS);
    stacks = next_slice(4);
    counts = next_slice(4);
}

int main(void)
{
    char word[16];
    state = new_slice(4, KKAEDURON_STATE_NUMBERS);
    while (next_word(word, sizeof word)) {
        if (!strcmp(word, "tables")) {
            lend_tables();
            continue;
        }
        if (!strcmp(word, "open"))
            call_open();
        else if (!strcmp(word, "take"))
            call_take();
        else if (!strcmp(word, "flush"))
            call_flush();
        else if (!strcmp(word, "misses") || !strcmp(word, "ratios"))
            call_question(word[0] == 'r');
        else if (!strcmp(word, "strip"))
            call_strip();
        else
            stop("no such call");
        putchar('\n');
        fflush(stdout);
    }
    return 0;
}
