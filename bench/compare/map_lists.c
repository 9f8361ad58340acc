/* Hand-off lists of memory: made block by block, or drawn. */
#include "map_lists.h"

#include <stdbool.h>
#include <stdlib.h>

#include "fields.h"
#include "images.h"
#include "lent.h"

#define FIRST_BYTES 56
#define RESOURCE_BYTES 48
#define END_BYTES 8

uint8_t *made;
size_t made_size;

void open_lists(size_t room)
{
	made = memory(malloc(room));
}

void add_block(uint64_t type, uint64_t length)
{
	fill_bytes(made + made_size, length);
	put_number(made, made_size, 2, type);
	put_number(made, made_size + 2, 2, length);
	made_size += (size_t)length;
}

void begin_list(void)
{
	made_size = 0;
	add_block(1, FIRST_BYTES);
}

void add_resource(uint64_t type, uint64_t start, uint64_t length)
{
	add_block(3, RESOURCE_BYTES);
	put_number(made, made_size - 24, 4, type);
	put_number(made, made_size - 16, 8, start);
	put_number(made, made_size - 8, 8, length);
}

void end_list(void)
{
	add_block(0xFFFF, END_BYTES);
}

/* ---- drawn ---- */

/* Memory and reserved ranges about as often, now and then another type, also one that has theirs in its low byte. */
static uint64_t draw_type(void)
{
	static const uint64_t others[] = { 1, 2, 3, 4, 6, 7, 256, 261, 0x05000000, 0xFFFFFFFF };
	const uint64_t kind = below(9);
	return kind < 5 ? MEMORY : kind < 8 ? RESERVED : others[below(sizeof others / sizeof others[0])];
}

/* A block that doesn't count: of another type, or a resource of another type. */
static void add_other(void)
{
	switch (below(4)) {
	case 0: add_block(4, 24 + 8 * below(6)); break;
	case 1: add_block(2, 8 + 8 * below(8)); break;
	case 2: add_block(1, 56); break;
	default: add_resource(1 + below(4), any_number(), any_number());
	}
}

/* Mostly a few ranges, sometimes as many as may be. */
static uint64_t draw_count(void)
{
	return below(10) == 0 ? 120 + below(9) : below(13);
}

static uint64_t draw_below(uint64_t limit)
{
	begin_list();
	for (uint64_t left = draw_count(); left > 0; left--) {
		const uint64_t start = below(limit + 1), longest = limit - start;
		const uint64_t type = draw_type(), few = type == MEMORY ? 3 : 6;
		add_resource(type, start, below(below(3) == 0 ? longest + 1 : longest / few + 1));
		if (below(6) == 0)
			add_other();
	}
	end_list();
	return limit;
}

uint64_t draw_small_list(void)
{
	return draw_below(1 + below(below(4) == 0 ? 300 : 24));
}

uint64_t draw_paged_list(void)
{
	return draw_below(4096 * below(12) + below(4096));
}

/* A start near one of the edges, or on a page, or anywhere. */
static uint64_t draw_start(void)
{
	static const uint64_t edges[] = { 0, 4096, TWO32, TWO32 - 16777216, UINT64_C(1) << 63 };
	const uint64_t near = below(3) == 0 ? 0 : below(3 * 4096);
	switch (below(5)) {
	case 0: return 0 - below(3) * 4096 - below(3);
	case 1: return below(0x100000) * 4096;
	case 2: return any_number() >> below(64);
	default: return edges[below(sizeof edges / sizeof edges[0])] + (below(2) == 0 ? near : 0 - near);
	}
}

/* A length that ends at 2^64 or below; often there. */
static uint64_t draw_length(uint64_t start)
{
	const uint64_t left = 0 - start, length = any_number() >> (24 + below(40)), kind = below(20);
	if (kind == 0)
		return left;
	return kind == 1 ? 0 : start != 0 && length > left ? left : length;
}

/* One that ends a byte above 2^64, or anywhere. */
static uint64_t draw_above(uint64_t start)
{
	return below(2) == 0 ? 1 - start : any_number();
}

void draw_large_list(void)
{
	uint64_t left = below(12) == 0 ? 127 + below(5) : draw_count();
	const bool above = below(4) == 0;
	begin_list();
	for (; left > 0; left--) {
		const uint64_t start = draw_start();
		add_resource(below(60) == 0 ? draw_type() : left % 3 == 0 ? RESERVED : MEMORY, start,
			     above && below(6) == 0 ? draw_above(start) : draw_length(start));
		if (below(12) == 0)
			add_other();
	}
	end_list();
}

void draw_damaged_list(void)
{
	draw_large_list();
	for (uint64_t left = 1 + below(3); left > 0; left--)
		made[below(3) == 0 ? below(made_size) : below(made_size / 8) * 8 + below(4)] = (uint8_t)(below(2) == 0 ? below(256) : 8 * below(32));
	if (below(3) == 0)
		made_size = (size_t)below(made_size + 1);
}

/* ---- as full as can be ---- */

/* Each reserved range takes the first half of a memory range that touches the one before. */
void full_list(size_t size, uint64_t other, enum order order)
{
	begin_list();
	for (uint64_t i = 0; i < 128; i++) {
		const uint64_t at = order == ASCENDING ? i : order == DESCENDING ? 127 - i : i * 77 % 128;
		add_resource(at % 2 == 0 ? MEMORY : RESERVED, at / 2 * 0x200000, at % 2 == 0 ? 0x200000 : 0x100000);
	}
	while (made_size + other + END_BYTES <= size)
		add_block(0x1234, other);
	while (made_size + 8 + END_BYTES <= size)
		add_block(0x1234, 8);
	end_list();
}
