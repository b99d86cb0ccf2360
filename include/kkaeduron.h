/* Kkaeduron's library calls for C: exact miss counts of LRU caches from references taken one by one, with flushes
 * among them, and a stripper.
 *
 * docs/SCOPE.md says what each call does; docs/LINKING.md says how to link. Every call returns, for any numbers and any
 * contents of what it is lent, with one of the answers below; the answer, the state and all that was lent are then
 * determined and proved (crates/capi).
 *
 * A slice is a pointer and then its length in entries. What has a fixed size (a state, the ratios, a number that the call
 * writes) is a pointer alone. What the caller owes, and nothing checks: behind a pointer is memory of that length or size,
 * the pointer is aligned for its entries, and nothing that a call writes overlaps anything else that it is lent. A slice
 * of length 0 may have any pointer.
 */
#ifndef KKAEDURON_H
#define KKAEDURON_H

#include <stddef.h>
#include <stdint.h>

#ifdef __cplusplus
extern "C" {
#endif

/* The answers. Of several refusals a call gives the first in the order that stands with the call. */
#define KKAEDURON_DONE 0
#define KKAEDURON_OUTSIDE_LIMITS 1 /* an order number, or the b or s of a strip, is outside its limits */
#define KKAEDURON_SHORT_STACKS 2   /* stack table shorter than the order needs */
#define KKAEDURON_SHORT_COUNTS 3   /* count table shorter than the order needs */
#define KKAEDURON_FOREIGN_STATE 4  /* a used length above room for a block size of the order, or taken above refs */
#define KKAEDURON_REFS_REACHED 5   /* the references taken equal refs */
#define KKAEDURON_STACK_FULL 6     /* at some block size the block is new and its stack is full */
#define KKAEDURON_COUNT_OVER 7     /* a count to be raised is not below taken, or the hits to be summed exceed it */
#define KKAEDURON_NOT_IN_ORDER 8   /* asked for a b, s or w that the order lacks */
#define KKAEDURON_NO_REFERENCES 9  /* ratio asked with no references taken */
#define KKAEDURON_SHORT_FILTER 12  /* filter table shorter than 2^s entries */
#define KKAEDURON_SHORT_OUTPUT 13  /* output shorter than the references kept */

/* The limits of an order's numbers. At most 8 block sizes, so bmax - bmin is at most 7. */
#define KKAEDURON_B_LEAST 2 /* bmin and bmax: blocks of 2^b bytes */
#define KKAEDURON_B_MOST 12
#define KKAEDURON_SIZES_MOST 8
#define KKAEDURON_S_MOST 14 /* smax: 2^s sets, every s from 0 to smax */
#define KKAEDURON_WAYS_LEAST 1
#define KKAEDURON_WAYS_MOST 16
#define KKAEDURON_ROOM_LEAST 1 /* entries of each stack */
#define KKAEDURON_ROOM_MOST 1048576
#define KKAEDURON_REFS_LEAST 1 /* the ceiling on references */
#define KKAEDURON_REFS_MOST 4000000000u

/* The state, the opened order, is 15 numbers: those of the order, the references taken, and the used length of the
 * stack for bmin, bmin + 1, .. (8 places, whatever bmax is). Hand the same 15 numbers to each call. */
#define KKAEDURON_STATE_NUMBERS 15
enum kkaeduron_state_place {
    KKAEDURON_BMIN,
    KKAEDURON_BMAX,
    KKAEDURON_SMAX,
    KKAEDURON_WAYS,
    KKAEDURON_ROOM,
    KKAEDURON_REFS,
    KKAEDURON_TAKEN,
    KKAEDURON_USED
};

/* The stack table: the stack for b starts at (b - bmin) * room, top first; the entries past its used length are zero.
 * The count table: how many hits had depth d in (b, s) stands at ((b - bmin) * (smax + 1) + s) * ways + d.
 * These give the entries that an order within its limits needs. Entries past them are never touched. */
#define KKAEDURON_STACKS_NEEDED(bmin, bmax, room) (((size_t)(bmax) - (bmin) + 1) * (room))
#define KKAEDURON_COUNTS_NEEDED(bmin, bmax, smax, ways) (((size_t)(bmax) - (bmin) + 1) * ((size_t)(smax) + 1) * (ways))

/* Opens an order: zeroes what it needs of both tables, and writes the state, with 0 taken and every used length 0.
 * Refused with 1, 2, 3. A refusal leaves both tables as they were and a state of zeros. */
uint32_t kkaeduron_open(uint32_t bmin, uint32_t bmax, uint32_t smax, uint32_t ways, uint32_t room, uint32_t refs,
                        uint32_t state[KKAEDURON_STATE_NUMBERS],
                        uint32_t *stacks, size_t stacks_length,
                        uint32_t *counts, size_t counts_length);

/* Takes a reference to an address. At each block size, where its block is in the stack, the count for (b, s, depth)
 * goes up by one for each s with depth below ways; then the block goes to the top. Taken goes up by one.
 * Refused with 1, 2, 3, 4, 5, 6, 7. A refusal leaves the state and both tables as they were.
 * 4 and 7 never come after an opening with the state handed on and the tables left alone (proved). */
uint32_t kkaeduron_take(uint32_t state[KKAEDURON_STATE_NUMBERS],
                        uint32_t *stacks, size_t stacks_length,
                        uint32_t *counts, size_t counts_length,
                        uint32_t address);

/* Flushes: every stack of the order is emptied, and its room is free again. What was used of it in the stack table becomes
 * zero, and its used length 0; taken, the counts and the rest of the stack table stay as they were.
 * Refused with 1, 2, 4. A refusal leaves the state and the stack table as they were.
 * After an opening, with the state handed on and that stack table lent, it is never refused. */
uint32_t kkaeduron_flush(uint32_t state[KKAEDURON_STATE_NUMBERS],
                         uint32_t *stacks, size_t stacks_length);

/* The misses of the cache (b, s, w), blocks of 2^b bytes, 2^s sets and w ways, go to *misses: taken less the counts at
 * depths 0 to w - 1. Refused with 1, 3, 4, 8, 7; *misses is then 0. A question leaves the state and the counts as they
 * are, refused or not. */
uint32_t kkaeduron_misses(const uint32_t state[KKAEDURON_STATE_NUMBERS],
                          const uint32_t *counts, size_t counts_length,
                          uint32_t b, uint32_t s, uint32_t w,
                          uint32_t *misses);

/* The two ratios of (b, s, w): the miss ratio, misses divided by taken and rounded once, and the traffic ratio, 2^b
 * times it. Refused as misses are, then with 9; both are then 0. */
#define KKAEDURON_BOTH_RATIOS 2
enum kkaeduron_ratio_place { KKAEDURON_MISS_RATIO, KKAEDURON_TRAFFIC_RATIO };
uint32_t kkaeduron_ratios(const uint32_t state[KKAEDURON_STATE_NUMBERS],
                          const uint32_t *counts, size_t counts_length,
                          uint32_t b, uint32_t s, uint32_t w,
                          double ratios[KKAEDURON_BOTH_RATIOS]);

/* Strips a list of addresses: those that miss in the cache of blocks of 2^b bytes, 2^s sets and 1 way go to the front
 * of out, in order, and how many they are goes to *kept. The rest of out is untouched. filter[i] is then the last block
 * of set i plus one, or 0 where none came; what it held before does not matter, and the entries from 2^s on are
 * untouched. b and s are within an order's limits for them. A strip knows no flush: it covers the references between two
 * of them, one call for each such run.
 * Refused with 1, 12, 13; *kept is then 0. A refusal leaves filter and out as they were, but 13 leaves the first 2^s
 * entries of filter zero. */
uint32_t kkaeduron_strip(const uint32_t *list, size_t list_length,
                         uint32_t b, uint32_t s,
                         uint32_t *filter, size_t filter_length,
                         uint32_t *out, size_t out_length,
                         size_t *kept);

#ifdef __cplusplus
}
#endif

#endif
