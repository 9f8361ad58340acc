/* Hand-off lists to compare readers by: boundary cases made by hand, and random lists. */
#ifndef BENCH_HANDOFF_IMAGES_H
#define BENCH_HANDOFF_IMAGES_H

#include <stddef.h>
#include <stdint.h>

#include "../second/handoff.h"

#define HANDOFF_PIECES 4

/* No case's buffer is larger. */
#define HANDOFF_CASE_ROOM 65600

/* A block's header as it claims to be, and how many bytes it really takes up; 0 is no piece. */
struct handoff_piece {
	uint16_t type;
	uint16_t length;
	uint32_t bytes;
};

/* The buffer is the pieces one after the other, cut after size bytes; one step at the cursor. */
struct handoff_case {
	const char *name;
	struct handoff_piece pieces[HANDOFF_PIECES];
	size_t size;
	uint64_t cursor;
	struct second_block answer;
};

extern const struct handoff_case handoff_cases[];
extern const size_t handoff_cases_count;

/* Writes the case's buffer, exactly its size. Byte i of a piece, from 4 on, is i modulo 256. */
void handoff_case_fill(const struct handoff_case *one, uint8_t *buffer);

/* A random buffer in the room: mostly a whole list, else a damaged one. Hands back its size. */
size_t handoff_random(uint8_t *buffer, size_t room);

/* A whole list of blocks of 8 to 56 bytes that fills the room of 64 bytes or more, but for 7 at most. */
size_t handoff_many(uint8_t *buffer, size_t room);

#endif
