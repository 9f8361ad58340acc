#include "handoff_images.h"

#include <stdbool.h>

#include "../make/drawn.h"

#define TYPE_HANDOFF 1
#define TYPE_RESOURCE 3
#define TYPE_GUID 4
#define TYPE_END 0xFFFF
#define LONGEST 65528

/* Pieces: the handoff block, the end block, and a block of any type whose length is true. */
#define FIRST { TYPE_HANDOFF, 56, 56 }
#define LAST { TYPE_END, 8, 8 }
#define BLOCK(type, length) { type, length, length }

/* A case's cursor and its answer. */
#define REFUSED(number, cursor) cursor, { number, cursor, 0, 0, 0, 0, 0, 0, 0, 0 }
#define AS_HANDOFF 0, { 0, 56, 0, 1, 56, 1, 0, 0, 0, 0 }
#define AS_UNKNOWN(cursor, type, length) \
	cursor, { 0, (cursor) + (length), cursor, type, length, 4, 0, 0, 0, 0 }
#define AS_END(cursor) cursor, { 0, cursor, cursor, 0xFFFF, 8, 5, 0, 0, 0, 0 }
#define AS_GUID(cursor, length) \
	cursor, { 0, (cursor) + (length), cursor, 4, length, 3, (cursor) + 24, (length) - 24, 0, 0 }
#define AS_RESOURCE(cursor, length) \
	cursor, { 0, (cursor) + (length), cursor, 3, length, 2, 0x1B1A1918, 0x1F1E1D1C, \
		  UINT64_C(0x2726252423222120), UINT64_C(0x2F2E2D2C2B2A2928) }

const struct handoff_case handoff_cases[] = {
	/* 32: nothing left where a block should stand. */
	{ "no bytes", { FIRST }, 0, REFUSED(32, 0) },
	{ "no bytes, cursor 1", { FIRST }, 0, REFUSED(32, 1) },
	{ "no bytes, last cursor", { FIRST }, 0, REFUSED(32, UINT64_MAX) },
	{ "smallest list, its first block", { FIRST, LAST }, 64, AS_HANDOFF },
	{ "smallest list, its end block", { FIRST, LAST }, 64, AS_END(56) },
	{ "cursor at the buffer's last byte", { FIRST, LAST }, 64, REFUSED(30, 63) },
	{ "cursor at the buffer's end", { FIRST, LAST }, 64, REFUSED(32, 64) },
	{ "cursor one past the end", { FIRST, LAST }, 64, REFUSED(32, 65) },
	{ "cursor a block past the end", { FIRST, LAST }, 64, REFUSED(32, 72) },
	{ "cursor 2^16", { FIRST, LAST }, 64, REFUSED(32, UINT64_C(0x10000)) },
	{ "cursor 2^32", { FIRST, LAST }, 64, REFUSED(32, UINT64_C(0x100000000)) },
	{ "cursor 2^32 + 56", { FIRST, LAST }, 64, REFUSED(32, UINT64_C(0x100000038)) },
	{ "cursor 2^63", { FIRST, LAST }, 64, REFUSED(32, UINT64_C(0x8000000000000000)) },
	{ "cursor 2^64 - 56", { FIRST, LAST }, 64, REFUSED(32, UINT64_MAX - 55) },
	{ "cursor 2^64 - 8", { FIRST, LAST }, 64, REFUSED(32, UINT64_MAX - 7) },
	{ "cursor 2^64 - 7", { FIRST, LAST }, 64, REFUSED(32, UINT64_MAX - 6) },
	{ "cursor 2^64 - 1", { FIRST, LAST }, 64, REFUSED(32, UINT64_MAX) },
	{ "no end block, its place", { FIRST }, 56, REFUSED(32, 56) },
	{ "no end block after a resource", { FIRST, BLOCK(3, 48) }, 104, REFUSED(32, 104) },

	/* 30: fewer than 8 bytes left. */
	{ "1 byte", { FIRST }, 1, REFUSED(30, 0) },
	{ "2 bytes", { FIRST }, 2, REFUSED(30, 0) },
	{ "3 bytes", { FIRST }, 3, REFUSED(30, 0) },
	{ "4 bytes", { FIRST }, 4, REFUSED(30, 0) },
	{ "7 bytes", { FIRST }, 7, REFUSED(30, 0) },
	{ "7 bytes, length 8", { BLOCK(1, 8) }, 7, REFUSED(30, 0) },
	{ "8 bytes, length 8", { BLOCK(1, 8) }, 8, REFUSED(31, 0) },
	{ "8 bytes, length 56", { FIRST }, 8, REFUSED(30, 0) },
	{ "55 bytes, length 56", { FIRST }, 55, REFUSED(30, 0) },
	{ "56 bytes, length 56", { FIRST }, 56, AS_HANDOFF },
	{ "57 bytes, length 56", { FIRST, LAST }, 57, AS_HANDOFF },
	{ "1 byte left", { FIRST, LAST }, 57, REFUSED(30, 56) },
	{ "3 bytes left", { FIRST, LAST }, 59, REFUSED(30, 56) },
	{ "4 bytes left", { FIRST, LAST }, 60, REFUSED(30, 56) },
	{ "7 bytes left", { FIRST, LAST }, 63, REFUSED(30, 56) },
	{ "8 bytes left", { FIRST, LAST }, 64, AS_END(56) },
	{ "7 bytes left, unknown", { FIRST, BLOCK(2, 8) }, 63, REFUSED(30, 56) },
	{ "8 bytes left, unknown", { FIRST, BLOCK(2, 8) }, 64, AS_UNKNOWN(56, 2, 8) },

	/* 30: length below 8. */
	{ "length 0", { FIRST, { 2, 0, 8 }, LAST }, 72, REFUSED(30, 56) },
	{ "length 1", { FIRST, { 2, 1, 8 }, LAST }, 72, REFUSED(30, 56) },
	{ "length 4", { FIRST, { 2, 4, 8 }, LAST }, 72, REFUSED(30, 56) },
	{ "length 7", { FIRST, { 2, 7, 8 }, LAST }, 72, REFUSED(30, 56) },
	{ "length 8", { FIRST, BLOCK(2, 8), LAST }, 72, AS_UNKNOWN(56, 2, 8) },
	{ "first block of length 0", { { 1, 0, 56 }, LAST }, 64, REFUSED(30, 0) },
	{ "first block of length 7", { { 1, 7, 56 }, LAST }, 64, REFUSED(30, 0) },
	{ "first block of length 8", { { 1, 8, 56 }, LAST }, 64, REFUSED(31, 0) },

	/* 30: length not a multiple of 8. */
	{ "length 9", { FIRST, { 2, 9, 16 }, LAST }, 80, REFUSED(30, 56) },
	{ "length 12", { FIRST, { 2, 12, 16 }, LAST }, 80, REFUSED(30, 56) },
	{ "length 15", { FIRST, { 2, 15, 16 }, LAST }, 80, REFUSED(30, 56) },
	{ "length 16", { FIRST, BLOCK(2, 16), LAST }, 80, AS_UNKNOWN(56, 2, 16) },
	{ "length 17", { FIRST, { 2, 17, 24 }, LAST }, 88, REFUSED(30, 56) },
	{ "first block of length 55", { { 1, 55, 56 }, LAST }, 64, REFUSED(30, 0) },
	{ "first block of length 57", { { 1, 57, 64 }, LAST }, 72, REFUSED(30, 0) },
	{ "resource of 52", { FIRST, { 3, 52, 56 }, LAST }, 120, REFUSED(30, 56) },
	{ "GUID block of 28", { FIRST, { 4, 28, 32 }, LAST }, 96, REFUSED(30, 56) },
	{ "length 65,527", { FIRST, { 2, 65527, LONGEST }, LAST }, 65592, REFUSED(30, 56) },
	{ "length 65,529", { FIRST, { 2, 65529, 65536 } }, 65592, REFUSED(30, 56) },
	{ "length 65,535", { FIRST, { 2, 65535, 65536 } }, 65592, REFUSED(30, 56) },

	/* 30: length past the buffer. */
	{ "to the end exactly", { FIRST, BLOCK(2, 16) }, 72, AS_UNKNOWN(56, 2, 16) },
	{ "to the end but for a byte", { FIRST, BLOCK(2, 16), LAST }, 73, AS_UNKNOWN(56, 2, 16) },
	{ "a byte past the end", { FIRST, BLOCK(2, 16) }, 71, REFUSED(30, 56) },
	{ "a step past the end", { FIRST, { 2, 24, 16 } }, 72, REFUSED(30, 56) },
	{ "as long as all of the buffer", { FIRST, { 2, 72, 16 } }, 72, REFUSED(30, 56) },
	{ "longest block", { FIRST, BLOCK(2, LONGEST), LAST }, 65592, AS_UNKNOWN(56, 2, LONGEST) },
	{ "longest block, to the end", { FIRST, BLOCK(2, LONGEST) }, 65584, AS_UNKNOWN(56, 2, LONGEST) },
	{ "longest block, a byte short", { FIRST, BLOCK(2, LONGEST) }, 65583, REFUSED(30, 56) },
	{ "longest block, a step short", { FIRST, { 2, LONGEST, 65520 } }, 65576, REFUSED(30, 56) },
	{ "longest block, 8 bytes left", { FIRST, { 2, LONGEST, 8 } }, 64, REFUSED(30, 56) },
	{ "after the longest block", { FIRST, BLOCK(2, LONGEST), LAST }, 65592, AS_END(65584) },
	{ "first block a step past", { { 1, 56, 48 } }, 48, REFUSED(30, 0) },
	{ "resource a step past", { FIRST, { 3, 48, 40 } }, 96, REFUSED(30, 56) },
	{ "GUID block a step past", { FIRST, { 4, 24, 16 } }, 72, REFUSED(30, 56) },

	/* 31: first block not type 1 of 56 bytes. */
	{ "first block of 48", { BLOCK(1, 48), LAST }, 56, REFUSED(31, 0) },
	{ "first block of 56", { BLOCK(1, 56), LAST }, 64, AS_HANDOFF },
	{ "first block of 64", { BLOCK(1, 64), LAST }, 72, REFUSED(31, 0) },
	{ "first block of 48, 56 bytes there", { { 1, 48, 56 }, LAST }, 64, REFUSED(31, 0) },
	{ "first block of 312", { BLOCK(1, 312), LAST }, 320, REFUSED(31, 0) },
	{ "first block of type 0", { BLOCK(0, 56), LAST }, 64, REFUSED(31, 0) },
	{ "first block of type 2", { BLOCK(2, 56), LAST }, 64, REFUSED(31, 0) },
	{ "first block of type 0x0101", { BLOCK(0x0101, 56), LAST }, 64, REFUSED(31, 0) },
	{ "first block of type 0x0100", { BLOCK(0x0100, 56), LAST }, 64, REFUSED(31, 0) },
	{ "first block a resource", { BLOCK(3, 48), LAST }, 56, REFUSED(31, 0) },
	{ "first block a resource of 56", { BLOCK(3, 56), LAST }, 64, REFUSED(31, 0) },
	{ "first block a GUID block", { BLOCK(4, 56), LAST }, 64, REFUSED(31, 0) },
	{ "first block the end block", { LAST }, 8, REFUSED(31, 0) },
	{ "first block refused, not the next", { BLOCK(2, 56), LAST }, 64, AS_END(56) },

	/* A later type 1 is unknown, of any length. */
	{ "later type 1 of 8", { FIRST, BLOCK(1, 8), LAST }, 72, AS_UNKNOWN(56, 1, 8) },
	{ "later type 1 of 48", { FIRST, BLOCK(1, 48), LAST }, 112, AS_UNKNOWN(56, 1, 48) },
	{ "later type 1 of 56", { FIRST, FIRST, LAST }, 120, AS_UNKNOWN(56, 1, 56) },
	{ "later type 1 of 64", { FIRST, BLOCK(1, 64), LAST }, 128, AS_UNKNOWN(56, 1, 64) },

	/* 33: a resource below 48 bytes. */
	{ "resource of 8", { FIRST, BLOCK(3, 8), LAST }, 72, REFUSED(33, 56) },
	{ "resource of 40", { FIRST, BLOCK(3, 40), LAST }, 104, REFUSED(33, 56) },
	{ "resource of 40 at the end", { FIRST, BLOCK(3, 40) }, 96, REFUSED(33, 56) },
	{ "resource of 48", { FIRST, BLOCK(3, 48), LAST }, 112, AS_RESOURCE(56, 48) },
	{ "resource of 48 at the end", { FIRST, BLOCK(3, 48) }, 104, AS_RESOURCE(56, 48) },
	{ "resource of 56", { FIRST, BLOCK(3, 56), LAST }, 120, AS_RESOURCE(56, 56) },
	{ "second resource", { FIRST, BLOCK(3, 48), BLOCK(3, 48), LAST }, 160, AS_RESOURCE(104, 48) },
	{ "type 0x0103 of 8", { FIRST, BLOCK(0x0103, 8), LAST }, 72, AS_UNKNOWN(56, 0x0103, 8) },
	{ "type 0x0300 of 8", { FIRST, BLOCK(0x0300, 8), LAST }, 72, AS_UNKNOWN(56, 0x0300, 8) },

	/* 33: a GUID block below 24. */
	{ "GUID block of 8", { FIRST, BLOCK(4, 8), LAST }, 72, REFUSED(33, 56) },
	{ "GUID block of 16", { FIRST, BLOCK(4, 16), LAST }, 80, REFUSED(33, 56) },
	{ "GUID block of 16 at the end", { FIRST, BLOCK(4, 16) }, 72, REFUSED(33, 56) },
	{ "GUID block of 24", { FIRST, BLOCK(4, 24), LAST }, 88, AS_GUID(56, 24) },
	{ "GUID block of 24 at the end", { FIRST, BLOCK(4, 24) }, 80, AS_GUID(56, 24) },
	{ "GUID block of 32", { FIRST, BLOCK(4, 32), LAST }, 96, AS_GUID(56, 32) },
	{ "longest GUID block", { FIRST, BLOCK(4, LONGEST), LAST }, 65592, AS_GUID(56, LONGEST) },
	{ "type 0x0104 of 8", { FIRST, BLOCK(0x0104, 8), LAST }, 72, AS_UNKNOWN(56, 0x0104, 8) },

	/* 33: an end block not of 8; bytes after one of 8 don't matter. */
	{ "end block of 16", { FIRST, BLOCK(TYPE_END, 16) }, 72, REFUSED(33, 56) },
	{ "end block of 16, more after it", { FIRST, BLOCK(TYPE_END, 16), LAST }, 80, REFUSED(33, 56) },
	{ "end block of 48", { FIRST, BLOCK(TYPE_END, 48) }, 104, REFUSED(33, 56) },
	{ "longest end block", { FIRST, BLOCK(TYPE_END, LONGEST) }, 65584, REFUSED(33, 56) },
	{ "a byte after the end block", { FIRST, LAST, { 2, 0, 8 } }, 65, AS_END(56) },
	{ "7 bytes after the end block", { FIRST, LAST, { 2, 0, 8 } }, 71, AS_END(56) },
	{ "a bad block after the end block", { FIRST, LAST, { 2, 0, 8 } }, 72, AS_END(56) },
	{ "a good block after the end block", { FIRST, LAST, BLOCK(3, 48) }, 112, AS_END(56) },
	{ "a cursor after the end block", { FIRST, LAST, BLOCK(3, 48) }, 112, AS_RESOURCE(64, 48) },
	{ "a second end block", { FIRST, LAST, LAST }, 72, AS_END(64) },

	/* Other types are unknown. */
	{ "type 0", { FIRST, BLOCK(0, 8), LAST }, 72, AS_UNKNOWN(56, 0, 8) },
	{ "type 2 of 48", { FIRST, BLOCK(2, 48), LAST }, 112, AS_UNKNOWN(56, 2, 48) },
	{ "type 5", { FIRST, BLOCK(5, 24), LAST }, 88, AS_UNKNOWN(56, 5, 24) },
	{ "type 0x00FF", { FIRST, BLOCK(0x00FF, 16), LAST }, 80, AS_UNKNOWN(56, 0x00FF, 16) },
	{ "type 0xFF00", { FIRST, BLOCK(0xFF00, 16), LAST }, 80, AS_UNKNOWN(56, 0xFF00, 16) },
	{ "type 0xFFFE of 8", { FIRST, BLOCK(0xFFFE, 8), LAST }, 72, AS_UNKNOWN(56, 0xFFFE, 8) },
	{ "type 0xFFFE of 16", { FIRST, BLOCK(0xFFFE, 16), LAST }, 80, AS_UNKNOWN(56, 0xFFFE, 16) },

	/* Within one block 32, 30, 31, 33. */
	{ "30 before 31: length 0, type 2", { { 2, 0, 56 }, LAST }, 64, REFUSED(30, 0) },
	{ "30 before 31: 60, type 2", { { 2, 60, 64 }, LAST }, 72, REFUSED(30, 0) },
	{ "30 before 31: first of 64, past", { { 1, 64, 56 } }, 56, REFUSED(30, 0) },
	{ "30 before 31 and 33: first an end block of 4", { { TYPE_END, 4, 8 } }, 8, REFUSED(30, 0) },
	{ "31 before 33: first a resource of 40", { BLOCK(3, 40), LAST }, 48, REFUSED(31, 0) },
	{ "31 before 33: first a GUID block of 16", { BLOCK(4, 16), LAST }, 24, REFUSED(31, 0) },
	{ "31 before 33: first an end block of 16", { BLOCK(TYPE_END, 16) }, 16, REFUSED(31, 0) },
	{ "30 before 33: resource of 0", { FIRST, { 3, 0, 8 }, LAST }, 72, REFUSED(30, 56) },
	{ "30 before 33: resource of 44", { FIRST, { 3, 44, 48 }, LAST }, 112, REFUSED(30, 56) },
	{ "30 before 33: resource of 40, past", { FIRST, { 3, 40, 32 } }, 88, REFUSED(30, 56) },
	{ "30 before 33: GUID block of 20", { FIRST, { 4, 20, 24 }, LAST }, 88, REFUSED(30, 56) },
	{ "30 before 33: GUID block of 16, past", { FIRST, { 4, 16, 8 } }, 64, REFUSED(30, 56) },
	{ "30 before 33: end block of 0", { FIRST, { TYPE_END, 0, 8 } }, 64, REFUSED(30, 56) },
	{ "30 before 33: end block of 12", { FIRST, { TYPE_END, 12, 16 } }, 72, REFUSED(30, 56) },
	{ "30 before 33: end block of 16, past", { FIRST, { TYPE_END, 16, 8 } }, 64, REFUSED(30, 56) },

	/* A cursor in the middle of a block takes what stands there for a block. */
	{ "a resource's outer block", { FIRST, { 4, 80, 32 }, BLOCK(3, 48), LAST }, 144, AS_GUID(56, 80) },
	{ "resource in a block", { FIRST, { 4, 80, 32 }, BLOCK(3, 48), LAST }, 144, AS_RESOURCE(88, 48) },
	{ "an end block in a block", { FIRST, { 2, 24, 16 }, LAST, LAST }, 88, AS_END(72) },
	{ "a thin block in a block", { FIRST, { 2, 24, 16 }, BLOCK(4, 8), LAST }, 88, REFUSED(33, 72) },
	{ "8 into the first block", { FIRST, LAST }, 64, REFUSED(30, 8) },
	{ "1 into the first block, to end", { FIRST, BLOCK(2, 976) }, 1025, AS_UNKNOWN(1, 0x3800, 1024) },
	{ "1 into the first block, past", { FIRST, BLOCK(2, 976) }, 1024, REFUSED(30, 1) },
	{ "55 into the first block", { FIRST, LAST }, 64, REFUSED(30, 55) },
	{ "1 into the end block", { FIRST, LAST }, 64, REFUSED(30, 57) },
	{ "a first block at an odd cursor", { { 0, 0, 9 }, FIRST, LAST }, 73, AS_UNKNOWN(9, 1, 56) },
	{ "a resource at an odd cursor", { { 0, 0, 11 }, BLOCK(3, 48) }, 59, AS_RESOURCE(11, 48) },
	{ "a GUID block at an odd cursor", { { 0, 0, 13 }, BLOCK(4, 40) }, 53, AS_GUID(13, 40) },
	{ "an end block at an odd cursor", { { 0, 0, 15 }, LAST }, 23, AS_END(15) },
};

const size_t handoff_cases_count = sizeof(handoff_cases) / sizeof(handoff_cases[0]);

/* Byte i of a piece: the type, the length, then i itself. */
static uint8_t piece_byte(const struct handoff_piece *piece, size_t i)
{
	if (i < 2)
		return (uint8_t)(piece->type >> (8 * i));
	if (i < 4)
		return (uint8_t)(piece->length >> (8 * (i - 2)));
	return (uint8_t)i;
}

void handoff_case_fill(const struct handoff_case *one, uint8_t *buffer)
{
	size_t at = 0;
	for (size_t p = 0; p < HANDOFF_PIECES; p++)
		for (size_t i = 0; i < one->pieces[p].bytes && at < one->size; i++)
			buffer[at++] = piece_byte(&one->pieces[p], i);
}

/* A list in the making: size bytes are written; two of its blocks' places are picked for damage. */
struct making {
	uint8_t *buffer;
	size_t room, size;
	size_t blocks;
	size_t picked[2];
	bool long_blocks;
};

/* A number at a place, little-endian, modulo what fits. */
static void put(struct making *m, size_t at, size_t width, uint64_t value)
{
	for (size_t i = 0; i < width; i++)
		m->buffer[at + i] = (uint8_t)(value >> (8 * i));
}

/* The types that mean something more often than the others. */
static uint64_t likely_type(void)
{
	static const uint64_t likely[8] = { 1, 3, 4, TYPE_END, 0, 2, 5, 0xFFFE };
	return below(8) == 0 ? below(65536) : likely[below(8)];
}

/* A type that means nothing. */
static uint64_t unknown_type(void)
{
	const uint64_t type = likely_type();
	if (type == TYPE_HANDOFF || type == TYPE_RESOURCE || type == TYPE_GUID || type == TYPE_END)
		return 6 + below(7);
	return type;
}

/* Zeros, any bytes, or what looks like blocks to a cursor in the middle. */
static void fill(struct making *m, size_t at, size_t count)
{
	const uint64_t how = below(3);
	for (size_t i = 0; i < count; i++)
		m->buffer[at + i] = how == 0 ? 0 : (uint8_t)any_number();
	if (how != 2)
		return;
	for (size_t i = 0; i + 8 <= count; i += 8) {
		put(m, at + i, 2, likely_type());
		put(m, at + i + 2, 2, 8 * (1 + below(7)));
	}
}

/* Appends a block, for which the caller has seen that there is room. */
static void add(struct making *m, uint64_t type, size_t length)
{
	const size_t place = m->size;
	put(m, place, 2, type);
	put(m, place + 2, 2, length);
	put(m, place + 4, 4, below(4) == 0 ? any_number() : 0);
	fill(m, place + 8, length - 8);
	m->size += length;
	m->blocks++;
	for (size_t i = 0; i < 2; i++)
		if (below(m->blocks) == 0)
			m->picked[i] = place;
}

/* Whole pages of any magnitude. One draw a statement: C leaves the order within one open. */
static uint64_t some_address(void)
{
	const uint64_t shift = below(64);
	return (any_number() >> shift) / 4096 * 4096;
}

/* Mostly whole pages, and the types that memory maps are made of. */
static void set_resource(struct making *m, size_t place)
{
	if (below(8) == 0)
		return;
	put(m, place + 24, 4, below(2) == 0 ? 5 * below(2) : below(8));
	put(m, place + 28, 4, below(0x40000));
	put(m, place + 32, 8, some_address());
	put(m, place + 40, 8, some_address());
}

/* A good length of at least the least: mostly that, or a few words more; in some lists any. */
static size_t some_length(struct making *m, size_t least)
{
	if (m->long_blocks && below(16) == 0)
		return least + 8 * (size_t)below((LONGEST - least) / 8 + 1);
	return least + 8 * (size_t)below(1 + (size_t)below(7));
}

/* Appends one of the blocks that stand in the middle; false where it and an end block don't fit. */
static bool add_middle(struct making *m)
{
	static const uint64_t types[8] = { 3, 3, 3, 4, 4, 1, 0, 0 };
	const uint64_t drawn = types[below(8)];
	const uint64_t type = drawn == 0 ? unknown_type() : drawn;
	size_t length = some_length(m, 8);
	if (type == TYPE_RESOURCE)
		length = some_length(m, 48);
	else if (type == TYPE_GUID)
		length = some_length(m, 24);
	else if (type == TYPE_HANDOFF && below(2) == 0)
		length = 56;
	if (length + 8 > m->room - m->size)
		return false;
	const size_t place = m->size;
	add(m, type, length);
	if (type == TYPE_RESOURCE)
		set_resource(m, place);
	return true;
}

/* A whole list, in at least 64 bytes of room: a few blocks or, seldom, all that fit. */
static void make_list(struct making *m)
{
	const uint64_t most = below(16) == 0 ? UINT64_MAX : below(12);
	m->long_blocks = below(8) == 0;
	add(m, TYPE_HANDOFF, 56);
	for (uint64_t i = 0; i < most; i++)
		if (!add_middle(m))
			break;
	add(m, TYPE_END, 8);
	if (below(3) == 0) {
		const size_t left = m->room - m->size;
		const size_t after = (size_t)below((left < 64 ? left : 64) + 1);
		fill(m, m->size, after);
		m->size += after;
	}
}

/* Any bytes, often with a good start of a handoff block. */
static void make_bytes(struct making *m)
{
	m->size = (size_t)below((m->room < 256 ? m->room : 256) + 1);
	fill(m, 0, m->size);
	if (m->size >= 4 && below(2) == 0) {
		put(m, 0, 2, TYPE_HANDOFF);
		put(m, 2, 2, 56);
	}
}

/* A resource below 48, a GUID block below 24, an end block not of 8; mostly by one step. */
static void make_thin(struct making *m, size_t place)
{
	static const uint64_t types[3] = { TYPE_RESOURCE, TYPE_GUID, TYPE_END };
	static const uint64_t closest[3] = { 40, 16, 16 };
	const uint64_t which = below(3);
	uint64_t length = closest[which];
	if (below(4) == 0)
		length = types[which] == TYPE_END ? 8 * (2 + below(6)) : 8 * (1 + below(length / 8));
	put(m, place, 2, types[which]);
	put(m, place + 2, 2, length);
}

/* A length past the buffer, mostly by one step; the longest where none is. */
static void make_past(struct making *m, size_t place)
{
	const uint64_t left = m->size - place;
	const uint64_t more = below(2) == 0 ? 0 : below(16);
	const uint64_t past = (left / 8 + 1 + more) * 8;
	put(m, place + 2, 2, past > LONGEST ? LONGEST : past);
}

/* A fault in the block at this place. */
static void damage_block(struct making *m, size_t place)
{
	switch (below(7)) {
	case 0:
	case 1:
		put(m, place + 2, 2, below(8));
		break;
	case 2:
		put(m, place + 2, 1, m->buffer[place + 2] / 8 * UINT64_C(8) + 1 + below(7));
		break;
	case 3:
	case 4:
		make_past(m, place);
		break;
	default:
		make_thin(m, place);
		break;
	}
}

/* A fault in the first block: mostly 48 or 64 bytes, or another type. */
static void damage_first(struct making *m)
{
	if (below(2) == 0)
		put(m, 0, 2, likely_type());
	else
		put(m, 2, 2, below(2) == 0 ? 48 + 16 * below(2) : 8 * (1 + below(12)));
}

/* The list cut short: anywhere, or in or after the header at this place. */
static void damage_size(struct making *m, size_t place)
{
	if (below(2) == 0)
		m->size = (size_t)below(m->size);
	else
		m->size = place + (size_t)below(9);
}

/* Any byte changed to any other. */
static void damage_byte(struct making *m)
{
	const size_t at = (size_t)below(m->size);
	put(m, at, 1, UINT64_C(1) + m->buffer[at] + below(255));
}

/* One fault somewhere; none where an earlier one has cut the place off. */
static void damage(struct making *m, size_t place)
{
	if (m->size < 8 || m->size - 8 < place)
		return;
	const uint64_t how = below(16);
	if (how < 9)
		damage_block(m, place);
	else if (how < 11)
		damage_first(m);
	else if (how < 15)
		damage_size(m, place);
	else
		damage_byte(m);
}

size_t handoff_random(uint8_t *buffer, size_t room)
{
	struct making m = { .buffer = buffer, .room = room };
	if (below(64) == 0)
		return 0;
	if (room < 64 || below(32) == 0) {
		make_bytes(&m);
		return m.size;
	}
	make_list(&m);
	if (below(3) == 0) {
		damage(&m, m.picked[0]);
		if (below(4) == 0)
			damage(&m, m.picked[1]);
	}
	return m.size;
}

/* Lengths of 8 to 56 in equal parts; a resource or a GUID block where the length allows it. */
size_t handoff_many(uint8_t *buffer, size_t room)
{
	struct making m = { .buffer = buffer, .room = room };
	add(&m, TYPE_HANDOFF, 56);
	while (m.room - m.size >= 16) {
		const size_t left = (m.room - m.size - 8) / 8;
		const size_t length = 8 * (1 + (size_t)below(left < 7 ? left : 7));
		const bool known = below(2) == 0;
		if (known && length >= 48)
			add(&m, TYPE_RESOURCE, length);
		else if (known && length >= 24)
			add(&m, TYPE_GUID, length);
		else
			add(&m, unknown_type(), length);
	}
	add(&m, TYPE_END, 8);
	return m.size;
}
