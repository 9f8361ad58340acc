/* The memory map and the place for an image, by the linked library and by the second reader: the cases of map_cases.c, and drawn lists,
   those of a small memory byte by byte as well. Every field, every lent byte and the bytes around them are held against each other. */
#include "compare_map.h"

#include <inttypes.h>
#include <stdio.h>
#include <stdlib.h>
#include <string.h>

#include "fields.h"
#include "held.h"
#include "images.h"
#include "map_lists.h"

#define LIST_ROOM ((size_t)262144)
#define OUT_ROOM ((size_t)4096)

/* A run of so many draws must have had every number. */
#define LONG 500

enum call { MAP, PLACE, CALLS };

static const char *const call_name[CALLS] = { "map", "lowest base" };
static uint64_t seen[CALLS][101];
static uint64_t ranges, placed;

static uint8_t wanted[OUT_ROOM];
static struct lent lent_list, lent_map;

/* ---- one call on both sides ---- */

/* What both sides must leave: the number, the answer's fields and the list. */
static void settle(enum call call, uint32_t number, uint64_t second, uint64_t field)
{
	const uint64_t fields[] = { second, field };
	settle_answer(number, second, fields, 2);
	if (!same_lent(&lent_list, "list", made))
		differ("the list");
	seen[call][number]++;
}

/* A map's bytes as they must be: the ranges, and what was there after them. */
static void put_ranges(const struct second_map *map)
{
	for (size_t i = 0; i < map->count; i++) {
		put_number(wanted, PAJURENDA_FREE_BYTES * i, 8, map->range[i].first);
		put_number(wanted, PAJURENDA_FREE_BYTES * i + 8, 8, map->range[i].last);
	}
}

/* The map of the list made, into a room of so many bytes. */
struct second_map same_map(size_t room, bool may_be_short)
{
	struct second_map map = { .number = PAJURENDA_SHORT };
	snprintf(whereabouts, sizeof whereabouts, "map of a list of %zu bytes, room %zu\n", made_size, room);
	lend(&lent_list, made, made_size);
	fill_bytes(wanted, room);
	lend(&lent_map, wanted, room);
	const bool short_answer = lend_answer(2, may_be_short) < PAJURENDA_MAP_BYTES;
	const uint32_t number = pajurenda_map(lent_list.at, made_size, lent_map.at, room, lent_answer.at, lent_answer.length);
	if (room >= PAJURENDA_MAP_ROOM && !short_answer)
		map = second_map(made, made_size);
	put_ranges(&map);
	settle(MAP, number, map.number, map.count);
	if (!same_lent(&lent_map, "map", wanted))
		differ("the map");
	ranges += map.count;
	return map;
}

/* The place of an image of so many bytes. */
struct second_place same_place(uint64_t size, bool may_be_short)
{
	snprintf(whereabouts, sizeof whereabouts, "place of %" PRIu64 " bytes, list of %zu\n", size, made_size);
	lend(&lent_list, made, made_size);
	lend_answer(2, may_be_short);
	const uint32_t number = pajurenda_lowest_base(lent_list.at, made_size, size, lent_answer.at, lent_answer.length);
	const struct second_place place = second_place(made, made_size, size);
	settle(PLACE, number, place.number, place.base);
	placed += number == 0 ? 1 : 0;
	return place;
}

/* ---- drawn ---- */

/* Any room, mostly enough. */
static size_t draw_room(void)
{
	const uint64_t kind = below(8);
	return (size_t)(kind == 0 ? below(PAJURENDA_MAP_ROOM) : kind == 1 ? PAJURENDA_MAP_ROOM - 1 : PAJURENDA_MAP_ROOM + below(2) * below(200));
}

/* A small memory: the sorted map is what each byte says. */
static void draw_small(void)
{
	const uint64_t limit = draw_small_list();
	const struct second_map map = same_map(PAJURENDA_MAP_ROOM, false), bytes = second_map_small(made, made_size, limit);
	if (memcmp(&map, &bytes, sizeof map) != 0)
		differ("the map byte by byte");
}

/* A memory of some pages: the place is the first base at which each byte is free. */
static void draw_paged(void)
{
	const uint64_t limit = draw_paged_list();
	for (int i = 0; i < 4; i++) {
		const uint64_t size = i == 0 ? below(3) : below(i == 1 ? 6000 : limit + 5);
		const struct second_place place = same_place(size, false), bytes = second_place_small(made, made_size, size, limit);
		if (memcmp(&place, &bytes, sizeof place) != 0)
			differ("the place byte by byte");
	}
}

/* A size: in bounds, at them, or any. */
static uint64_t draw_size(void)
{
	static const uint64_t bounds[] = { 0, 1, 4096, 16777216, 16777217, UINT64_MAX };
	return below(3) == 0 ? bounds[below(6)] : below(20) == 0 ? any_number() : 1 + below(UINT64_C(1) << (1 + below(24)));
}

static void draw_large(void)
{
	if (below(3) == 0)
		draw_damaged_list();
	else
		draw_large_list();
	same_map(draw_room(), true);
	for (int i = 0; i < 3; i++)
		same_place(draw_size(), true);
}

/* Each number that a call can give has come. */
static void want_all_seen(void)
{
	static const unsigned numbers[] = { 0, 30, 31, 32, 33, 34, 35, 100, 36, 37 };
	for (int call = 0; call < CALLS; call++)
		for (size_t i = 0; i < (call == MAP ? 8 : 10); i++)
			if (seen[call][numbers[i]] == 0) {
				printf("%s: %u\n", call_name[call], numbers[i]);
				differ("a number that never came");
			}
}

int main(int count, char **words)
{
	if (count != 3) {
		fputs("usage: compare_map SEED DRAWS\n", stderr);
		return 2;
	}
	numbers_from(number_of(words[1]));
	const uint64_t draws = number_of(words[2]);
	open_lists(LIST_ROOM);
	open_lent(&lent_list, LIST_ROOM);
	open_lent(&lent_map, OUT_ROOM);
	open_answer();
	watch_faults();
	const uint64_t cases = try_cases();
	for (uint64_t left = draws; left > 0; left--) {
		draw_small();
		draw_large();
		if (left % 16 == 0)
			draw_paged();
	}
	for (int call = 0; call < CALLS; call++)
		show_seen(call_name[call], seen[call]);
	if (draws >= LONG)
		want_all_seen();
	printf("memory: %" PRIu64 " cases, %" PRIu64 " free ranges, %" PRIu64 " places; none different\n", cases, ranges, placed);
	return 0;
}
