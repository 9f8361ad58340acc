/* Lists of memory made by hand, each with the map or the place that request #111 gives: both readers must have it. */
#include "compare_map.h"

#include <inttypes.h>
#include <stdio.h>

#include "held.h"
#include "map_lists.h"
#include "pajurenda.h"

#define TWO32 UINT64_C(0x100000000)
#define TWO63 UINT64_C(0x8000000000000000)

static uint64_t cases;

/* One number that must be another. */
static void must(int line, const char *what, uint64_t got, uint64_t wanted)
{
	if (got == wanted)
		return;
	printf("map_cases.c:%d: %s is 0x%" PRIX64 ", not 0x%" PRIX64 "\n", line, what, got, wanted);
	differ("the answer that the case must have");
}

/* The list made so far, ended for the time of a look at it. */
static struct second_map map_of_list(void)
{
	const size_t kept = made_size;
	end_list();
	const struct second_map map = same_map(PAJURENDA_MAP_ROOM, false);
	made_size = kept;
	cases++;
	return map;
}

static struct second_place place_in_list(uint64_t size)
{
	const size_t kept = made_size;
	end_list();
	const struct second_place place = same_place(size, false);
	made_size = kept;
	cases++;
	return place;
}

/* The map is these ranges, given as first and last. */
static void map_is(int line, uint64_t count, const uint64_t *wanted)
{
	const struct second_map map = map_of_list();
	must(line, "the number", map.number, 0);
	must(line, "the count", map.count, count);
	for (uint64_t i = 0; i < count; i++) {
		must(line, "a first byte", map.range[i].first, wanted[2 * i]);
		must(line, "a last byte", map.range[i].last, wanted[2 * i + 1]);
	}
}

#define MAP_IS(count, ...) map_is(__LINE__, count, (const uint64_t[]){ __VA_ARGS__ })
#define NO_MAP(wanted) must(__LINE__, "the number", map_of_list().number, wanted)
#define BASE_IS(size, wanted) base_is(__LINE__, size, wanted)
#define NO_BASE(size, wanted) must(__LINE__, "the number", place_in_list(size).number, wanted)

static void base_is(int line, uint64_t size, uint64_t wanted)
{
	const struct second_place place = place_in_list(size);
	must(line, "the number", place.number, 0);
	must(line, "the base", place.base, wanted);
}

/* Ranges of both types; each line of them is a list. */
struct range {
	uint64_t type, start, length;
};

static void list_of(const struct range *range, size_t count)
{
	begin_list();
	for (size_t i = 0; i < count; i++)
		add_resource(range[i].type, range[i].start, range[i].length);
}

#define LIST(...)                                                                                                  \
	list_of((const struct range[]){ __VA_ARGS__ }, sizeof(struct range[]){ __VA_ARGS__ } / sizeof(struct range))

static void try_memory(void)
{
	begin_list();
	MAP_IS(0, 0);
	LIST({ MEMORY, 10, 0 });
	MAP_IS(0, 0);
	LIST({ MEMORY, 10, 1 });
	MAP_IS(1, 10, 10);
	LIST({ MEMORY, 0, 1 });
	MAP_IS(1, 0, 0);
	LIST({ MEMORY, 20, 10 }, { MEMORY, 10, 10 }); /* touch */
	MAP_IS(1, 10, 29);
	LIST({ MEMORY, 20, 10 }, { MEMORY, 10, 9 }); /* a byte between */
	MAP_IS(2, 10, 18, 20, 29);
	LIST({ MEMORY, 10, 30 }, { MEMORY, 15, 3 }); /* nested */
	MAP_IS(1, 10, 39);
	LIST({ MEMORY, 10, 30 }, { MEMORY, 35, 20 }, { MEMORY, 5, 6 }); /* overlapping */
	MAP_IS(1, 5, 54);
	LIST({ MEMORY, 10, 30 }, { MEMORY, 10, 30 }, { MEMORY, 10, 30 }); /* identical */
	MAP_IS(1, 10, 39);
	LIST({ MEMORY, TWO32 - 1, 1 });
	MAP_IS(1, TWO32 - 1, TWO32 - 1);
}

static void try_reserved(void)
{
	LIST({ RESERVED, 0, 100 });
	MAP_IS(0, 0);
	LIST({ MEMORY, 10, 30 }, { RESERVED, 20, 5 }); /* the middle */
	MAP_IS(2, 10, 19, 25, 39);
	LIST({ MEMORY, 10, 30 }, { RESERVED, 0, 15 }, { RESERVED, 35, 100 }); /* both ends */
	MAP_IS(1, 15, 34);
	LIST({ RESERVED, 20, 0 }, { MEMORY, 10, 30 }); /* an empty hole */
	MAP_IS(1, 10, 39);
	LIST({ RESERVED, 20, 5 }, { RESERVED, 25, 5 }, { MEMORY, 10, 30 }); /* holes that touch */
	MAP_IS(2, 10, 19, 30, 39);
	LIST({ RESERVED, 10, 30 }, { MEMORY, 10, 30 }); /* all of it */
	MAP_IS(0, 0);
	LIST({ RESERVED, 11, 29 }, { MEMORY, 10, 30 }, { RESERVED, 11, 29 }); /* all but the first byte */
	MAP_IS(1, 10, 10);
	LIST({ RESERVED, 0, 39 }, { MEMORY, 10, 30 }); /* all but the last */
	MAP_IS(1, 39, 39);
	LIST({ MEMORY, 0, 10 }, { MEMORY, 20, 10 }, { RESERVED, 5, 20 }); /* over two */
	MAP_IS(2, 0, 4, 25, 29);
	LIST({ MEMORY, 0, 10 }, { MEMORY, 10, 10 }, { RESERVED, 9, 1 }, { RESERVED, 10, 1 }); /* where two touch */
	MAP_IS(2, 0, 8, 11, 19);
}

/* Types that don't count, blocks that are no resources, a resource with more than its 48 bytes, bytes after the end block. */
static void try_others(void)
{
	static const uint64_t types[] = { 1, 2, 3, 4, 6, 7, 256, 261, 0x05000000, 0xFFFFFFFF, 0x80000000 };
	LIST({ MEMORY, 10, 30 });
	for (size_t i = 0; i < sizeof types / sizeof types[0]; i++) {
		add_resource(types[i], 12, 3);
		add_resource(types[i], UINT64_MAX, UINT64_MAX);
		add_resource(types[i], 50, 9);
	}
	add_block(4, 24);
	add_block(2, 48);
	add_block(1, 56);
	MAP_IS(1, 10, 39);
	end_list();
	add_resource(RESERVED, 0, 100);
	MAP_IS(1, 10, 39);
	LIST({ MEMORY, 7, 3 });
	made[56 + 2] = 64;
	made_size += 16;
	MAP_IS(1, 7, 9);
}

/* 34: 2^64 itself is fine, one byte more isn't. */
static void try_top(void)
{
	LIST({ MEMORY, UINT64_MAX, 1 });
	MAP_IS(1, UINT64_MAX, UINT64_MAX);
	LIST({ MEMORY, UINT64_MAX, 2 });
	NO_MAP(34);
	NO_BASE(0, 34);
	LIST({ RESERVED, 2, UINT64_MAX });
	NO_MAP(34);
	LIST({ MEMORY, UINT64_MAX, 0 });
	MAP_IS(0, 0);
	LIST({ MEMORY, 0, UINT64_MAX });
	MAP_IS(1, 0, UINT64_MAX - 1);
	LIST({ MEMORY, 1, UINT64_MAX });
	MAP_IS(1, 1, UINT64_MAX);
	LIST({ MEMORY, TWO63, TWO63 }, { MEMORY, 0, TWO63 });
	MAP_IS(1, 0, UINT64_MAX);
	LIST({ MEMORY, TWO63, TWO63 + 1 });
	NO_MAP(34);
	LIST({ MEMORY, 0, TWO63 }, { MEMORY, TWO63, TWO63 }, { RESERVED, UINT64_MAX, 1 });
	MAP_IS(1, 0, UINT64_MAX - 1);
	LIST({ MEMORY, 1, UINT64_MAX }, { MEMORY, UINT64_MAX, 1 }, { RESERVED, 5, UINT64_MAX - 5 });
	MAP_IS(2, 1, 4, UINT64_MAX, UINT64_MAX);
}

/* 128 ranges of one byte, then with as many holes; 129, of which the last may be empty. 34 is looked for in all before 35. */
static void try_many(void)
{
	begin_list();
	for (uint64_t i = 0; i < 128; i++)
		add_resource(MEMORY, 2 * i, 1);
	must(__LINE__, "the count", map_of_list().count, 128);
	begin_list();
	add_resource(MEMORY, 0, 1000);
	for (uint64_t i = 0; i < 127; i++)
		add_resource(RESERVED, 2 * i + 1, 1);
	must(__LINE__, "the count", map_of_list().count, 128);
	must(__LINE__, "the last byte", map_of_list().range[127].last, 999);
	add_resource(1, 0, 1);
	must(__LINE__, "the count", map_of_list().count, 128);
	add_resource(RESERVED, 0, 0);
	NO_MAP(35);
	NO_BASE(0, 35);
	add_resource(MEMORY, UINT64_MAX, 2);
	NO_MAP(34);
	NO_BASE(0, 34);
	add_block(3, 40);
	NO_MAP(33);
	NO_BASE(0, 33);
}

/* The list's own refusals, each before those of its memory. */
static void try_refused(void)
{
	LIST({ MEMORY, UINT64_MAX, 2 });
	add_block(9, 12);
	NO_MAP(30);
	made_size = 0;
	must(__LINE__, "the number", same_map(PAJURENDA_MAP_ROOM, false).number, 32);
	must(__LINE__, "the number", same_place(0, false).number, 32);
	begin_list();
	must(__LINE__, "the number", same_map(PAJURENDA_MAP_ROOM, false).number, 32);
	made[0] = 2;
	NO_MAP(31);
	LIST({ MEMORY, 0, 4096 });
	end_list();
	must(__LINE__, "the number", same_map(PAJURENDA_MAP_ROOM - 1, false).number, PAJURENDA_SHORT);
	must(__LINE__, "the number", same_map(0, false).number, PAJURENDA_SHORT);
	must(__LINE__, "the number", same_map(PAJURENDA_MAP_ROOM + 1, false).number, 0);
	cases += 6;
}

/* 36, rounding up, a range of exactly the image, one byte too little. */
static void try_place(void)
{
	LIST({ MEMORY, 0, TWO32 });
	NO_BASE(0, 36);
	NO_BASE(16777217, 36);
	NO_BASE(TWO32, 36);
	NO_BASE(UINT64_MAX, 36);
	BASE_IS(1, 0);
	BASE_IS(4096, 0);
	BASE_IS(16777216, 0);
	LIST({ MEMORY, 1, 8191 });
	BASE_IS(4096, 4096);
	NO_BASE(4097, 37);
	LIST({ MEMORY, 12345, 16777216 }); /* as long as the image, and not at a multiple */
	NO_BASE(16777216, 37);
	LIST({ MEMORY, 12345, 16384 - 12345 + 16777216 });
	BASE_IS(16777216, 16384);
	LIST({ MEMORY, 8192, 4096 });
	BASE_IS(4096, 8192);
	NO_BASE(4097, 37);
	LIST({ MEMORY, 4096, 100 }, { MEMORY, 8000, 1000 }); /* the first is too short */
	BASE_IS(100, 4096);
	BASE_IS(101, 8192);
	BASE_IS(808, 8192);
	NO_BASE(809, 37);
	LIST({ MEMORY, 4097, 4095 }); /* no multiple in it */
	NO_BASE(1, 37);
	LIST({ MEMORY, 4097, 4096 });
	BASE_IS(1, 8192);
	NO_BASE(2, 37);
	LIST({ MEMORY, 0, 4096 }, { MEMORY, 4096, 4096 }); /* one range of two */
	BASE_IS(8192, 0);
	begin_list();
	NO_BASE(1, 37);
	NO_BASE(0, 36);
}

/* A range may cross 4 GiB, the image may not. */
static void try_below_4g(void)
{
	LIST({ MEMORY, TWO32 - 4096, 8192 });
	BASE_IS(4096, TWO32 - 4096);
	NO_BASE(4097, 37);
	LIST({ MEMORY, TWO32 - 4095, 8192 });
	NO_BASE(1, 37);
	LIST({ MEMORY, TWO32 - 1, 4096 });
	NO_BASE(1, 37);
	LIST({ MEMORY, TWO32, 8192 });
	NO_BASE(1, 37);
	LIST({ MEMORY, TWO32 - 16777216, 16777216 });
	BASE_IS(16777216, TWO32 - 16777216);
	LIST({ MEMORY, 1, UINT64_MAX });
	BASE_IS(16777216, 4096);
	LIST({ MEMORY, UINT64_MAX - 99, 100 }); /* the next multiple would be 2^64 */
	NO_BASE(1, 37);
	LIST({ MEMORY, 0, UINT64_MAX }, { RESERVED, 1, UINT32_MAX - 4096 });
	BASE_IS(1, 0);
	BASE_IS(2, TWO32 - 4096);
	NO_BASE(4097, 37);
}

uint64_t try_cases(void)
{
	try_memory();
	try_reserved();
	try_others();
	try_top();
	try_many();
	try_refused();
	try_place();
	try_below_4g();
	return cases;
}
