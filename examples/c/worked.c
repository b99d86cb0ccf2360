/* The worked trace of docs/SCOPE.md through the library: its misses, the ratios of one cache, a flush and the
 * trace again, a strip, and a refusal. */
#include <inttypes.h>
#include <stdio.h>

#include "kkaeduron.h"

#define BMIN 4
#define BMAX 4
#define SMAX 1
#define WAYS 2
#define ROOM 8
#define REFS 100
#define LENGTH(slice) (sizeof(slice) / sizeof((slice)[0]))

static const uint32_t trace[] = {0x0, 0x10, 0x20, 0x0, 0x14, 0x40, 0x0, 0x20};

static uint32_t state[KKAEDURON_STATE_NUMBERS];
static uint32_t stacks[KKAEDURON_STACKS_NEEDED(BMIN, BMAX, ROOM)];
static uint32_t counts[KKAEDURON_COUNTS_NEEDED(BMIN, BMAX, SMAX, WAYS)];

static int refused(const char *call, uint32_t answer)
{
    if (answer != KKAEDURON_DONE)
        printf("%s: refused with %" PRIu32 "\n", call, answer);
    return answer != KKAEDURON_DONE;
}

static int open_order(void)
{
    return !refused("open", kkaeduron_open(BMIN, BMAX, SMAX, WAYS, ROOM, REFS, state, stacks, LENGTH(stacks), counts,
                                           LENGTH(counts)));
}

static int take_all(void)
{
    for (size_t i = 0; i < LENGTH(trace); i++)
        if (refused("take", kkaeduron_take(state, stacks, LENGTH(stacks), counts, LENGTH(counts), trace[i])))
            return 0;
    printf("refs=%" PRIu32 "\n", state[KKAEDURON_TAKEN]);
    return 1;
}

static void print_misses(uint32_t b, uint32_t s, uint32_t w)
{
    uint32_t misses;
    if (!refused("misses", kkaeduron_misses(state, counts, LENGTH(counts), b, s, w, &misses)))
        printf("b=%" PRIu32 " s=%" PRIu32 " w=%" PRIu32 " misses=%" PRIu32 "\n", b, s, w, misses);
}

static void print_ratios(uint32_t b, uint32_t s, uint32_t w)
{
    double ratios[KKAEDURON_BOTH_RATIOS];
    if (!refused("ratios", kkaeduron_ratios(state, counts, LENGTH(counts), b, s, w, ratios)))
        printf("b=%" PRIu32 " s=%" PRIu32 " w=%" PRIu32 " miss ratio %.3f traffic ratio %.1f\n", b, s, w,
               ratios[KKAEDURON_MISS_RATIO], ratios[KKAEDURON_TRAFFIC_RATIO]);
}

static int flush(void)
{
    if (refused("flush", kkaeduron_flush(state, stacks, LENGTH(stacks))))
        return 0;
    printf("flush\n");
    return 1;
}

static void print_stripped(uint32_t b, uint32_t s)
{
    uint32_t filter[4], out[LENGTH(trace)];
    size_t kept;
    if (refused("strip", kkaeduron_strip(trace, LENGTH(trace), b, s, filter, LENGTH(filter), out, LENGTH(out), &kept)))
        return;
    printf("strip b=%" PRIu32 " s=%" PRIu32 " keeps", b, s);
    for (size_t i = 0; i < kept; i++)
        printf(" %" PRIx32, out[i]);
    printf("\n");
}

int main(void)
{
    if (!open_order() || !take_all())
        return 1;
    for (uint32_t s = 0; s <= SMAX; s++)
        for (uint32_t w = 1; w <= WAYS; w++)
            print_misses(4, s, w);
    print_ratios(4, 1, 2);
    if (!flush() || !take_all())
        return 1;
    print_misses(4, 1, 2); /* every set was empty again: twice the 5 misses */
    print_stripped(4, 2);
    print_misses(5, 0, 1); /* the order has no blocks of 2^5 bytes */
    return 0;
}
