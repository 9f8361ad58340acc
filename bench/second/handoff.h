/* The second reader of hand-off blocks: request #101, written apart from the library. */
#ifndef BENCH_SECOND_HANDOFF_H
#define BENCH_SECOND_HANDOFF_H

#include <stddef.h>
#include <stdint.h>

/*
 * Number 0 is an accepted block. A refused one (30..33) has next as the cursor was given, and zero
 * in every other field. Places are counted from the buffer's start.
 *
 * kind            a              b             c      d
 * 0 nothing       0              0             0      0
 * 1 handoff       0              0             0      0
 * 2 resource      type           attributes    start  length
 * 3 GUID data     data's place   data's length 0      0
 * 4 unknown       0              0             0      0
 * 5 end           0              0             0      0
 */
struct second_block {
	uint64_t number, next, place, type, length, kind, a, b, c, d;
};

/* One step: the block at the cursor, or a refusal. Any bytes, any cursor. */
struct second_block second_handoff_step(const uint8_t *buffer, size_t size, uint64_t cursor);

/* Number 0, the end block's place and how many blocks there are; or the first refusal, where it is, and how many blocks before it. */
struct second_list {
	uint64_t number, place, count;
};

/* The whole list from cursor 0, step by step. */
struct second_list second_handoffs(const uint8_t *buffer, size_t size);

#endif
