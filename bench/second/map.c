#include "map.h"

#include <stdbool.h>
#include <stdlib.h>

#include "handoff.h"
#include "numbers.h"

#define KIND_RESOURCE 2
#define KIND_END 5
#define SYSTEM_MEMORY 0
#define RESERVED 5
#define LARGEST_IMAGE UINT64_C(16777216)

/* #111: a resource of type 0 or 5 as the list has it; its length may be 0. */
struct resource {
	uint64_t type, start, length;
};

/* #111: the resources of the two types in list order; beyond 128 they are only counted. */
struct resources {
	uint64_t number, count;
	bool too_high;
	struct resource resource[SECOND_MAP_RANGES];
};

/* Refusal 34: start + length above 2^64; a start of 0 never gets there. */
static bool ends_too_high(const struct resource *r)
{
	return r->start != 0 && r->length > UINT64_MAX - r->start + 1;
}

/* #111: one more resource; other types don't count. */
static void add_resource(struct resources *all, const struct second_block *block)
{
	const struct resource r = { .type = block->a, .start = block->c, .length = block->d };

	if (r.type != SYSTEM_MEMORY && r.type != RESERVED)
		return;
	if (ends_too_high(&r))
		all->too_high = true;
	if (all->count < SECOND_MAP_RANGES)
		all->resource[all->count] = r;
	all->count++;
}

/* Refusals 30..33: the whole list is walked, to its end block, before anything else is judged. */
static void gather(struct resources *all, const uint8_t *buffer, size_t size)
{
	uint64_t cursor = 0;
	for (;;) {
		const struct second_block block = second_handoff_step(buffer, size, cursor);
		all->number = block.number;
		if (block.number != 0 || block.kind == KIND_END)
			return;
		if (block.kind == KIND_RESOURCE)
			add_resource(all, &block);
		cursor = block.next;
	}
}

/* Refusals 30..33, 34, 35. */
static uint64_t judge_list(struct resources *all, const uint8_t *buffer, size_t size)
{
	gather(all, buffer, size);
	if (all->number != 0)
		return all->number;
	if (all->too_high)
		return 34;
	return all->count > SECOND_MAP_RANGES ? 35 : 0;
}

/* Refusal 36. */
static bool refuse_size(uint64_t image_size)
{
	return image_size == 0 || image_size > LARGEST_IMAGE;
}

/* ---- by sorting ---- */

/* #111: ranges of one type; the last byte is in the range, so that 2^64 need not be said. */
struct ranges {
	uint64_t count;
	struct second_free range[SECOND_MAP_RANGES];
};

/* #111: from the lowest first byte on. */
static int by_first(const void *a, const void *b)
{
	const struct second_free *one = a, *other = b;
	return (one->first > other->first) - (one->first < other->first);
}

/* #111: the ranges of one type that have a byte, sorted; they may still overlap. */
static void sort_type(struct ranges *sorted, const struct resources *all, uint64_t type)
{
	sorted->count = 0;
	for (uint64_t i = 0; i < all->count; i++) {
		const struct resource *r = &all->resource[i];
		if (r->type == type && r->length != 0)
			sorted->range[sorted->count++] =
				(struct second_free){ .first = r->start, .last = r->start + (r->length - 1) };
	}
	qsort(sorted->range, (size_t)sorted->count, sizeof sorted->range[0], by_first);
}

/* #111: a range that begins no lower joins the last one where they overlap or touch. */
static bool joins(const struct second_free *last, const struct second_free *next)
{
	return next->first <= last->last || next->first - last->last == 1;
}

/* #111: sorted ranges become ranges with at least a byte between them. */
static void join(struct ranges *sorted)
{
	uint64_t kept = 0;
	for (uint64_t i = 0; i < sorted->count; i++) {
		const struct second_free next = sorted->range[i];
		struct second_free *last = &sorted->range[kept == 0 ? 0 : kept - 1];
		if (kept == 0 || !joins(last, &next))
			sorted->range[kept++] = next;
		else if (next.last > last->last)
			last->last = next.last;
	}
	sorted->count = kept;
}

/* #111: one more free range. */
static void add_free(struct second_map *map, uint64_t first, uint64_t last)
{
	map->range[map->count++] = (struct second_free){ .first = first, .last = last };
}

/* #111: what the reserved ranges, sorted and joined, leave of one range. */
static void subtract(struct second_map *map, struct second_free from, const struct ranges *reserved)
{
	for (uint64_t i = 0; i < reserved->count; i++) {
		const struct second_free *r = &reserved->range[i];
		if (r->last < from.first)
			continue;
		if (r->first > from.last)
			break;
		if (r->first > from.first)
			add_free(map, from.first, r->first - 1);
		if (r->last >= from.last)
			return;
		from.first = r->last + 1;
	}
	add_free(map, from.first, from.last);
}

struct second_map second_map(const uint8_t *buffer, size_t size)
{
	struct resources all = { .number = 0 };
	struct second_map map = { .number = judge_list(&all, buffer, size) };
	struct ranges memory, reserved;

	if (map.number != 0)
		return map;
	sort_type(&memory, &all, SYSTEM_MEMORY);
	sort_type(&reserved, &all, RESERVED);
	join(&memory);
	join(&reserved);
	for (uint64_t i = 0; i < memory.count; i++)
		subtract(&map, memory.range[i], &reserved);
	return map;
}

/* #111: the lowest multiple of 4,096 in a range, where an image from there on is legal and inside; false where it isn't. */
static bool fits(const struct second_free *range, uint64_t image_size, uint64_t *base)
{
	if (range->first > UINT32_MAX)
		return false;
	*base = (range->first + 4095) / 4096 * 4096;
	return legal_base(*base, image_size) && *base + (image_size - 1) <= range->last;
}

struct second_place second_place(const uint8_t *buffer, size_t size, uint64_t image_size)
{
	const struct second_map map = second_map(buffer, size);
	uint64_t base = 0;

	if (map.number != 0)
		return (struct second_place){ .number = map.number };
	if (refuse_size(image_size))
		return (struct second_place){ .number = 36 };
	for (uint64_t i = 0; i < map.count; i++)
		if (fits(&map.range[i], image_size, &base))
			return (struct second_place){ .base = base };
	return (struct second_place){ .number = 37 };
}

/* ---- byte by byte ---- */

/* #111: whether some resource of a type has a byte. */
static bool has_byte(const struct resources *all, uint64_t type, uint64_t at)
{
	for (uint64_t i = 0; i < all->count; i++) {
		const struct resource *r = &all->resource[i];
		if (r->type == type && at >= r->start && at - r->start < r->length)
			return true;
	}
	return false;
}

/* #111: one mark for each byte below the limit, 1 where it is free; nobody goes on without memory. */
static uint8_t *free_bytes(const struct resources *all, uint64_t limit)
{
	uint8_t *bytes = limit < SIZE_MAX ? malloc((size_t)limit + 1) : NULL;
	if (bytes == NULL)
		abort();
	for (uint64_t at = 0; at < limit; at++)
		bytes[at] = has_byte(all, SYSTEM_MEMORY, at) && !has_byte(all, RESERVED, at) ? 1 : 0;
	return bytes;
}

/* #111: a byte after one that isn't free begins a range, and the next ones make it longer. */
struct second_map second_map_small(const uint8_t *buffer, size_t size, uint64_t limit)
{
	struct resources all = { .number = 0 };
	struct second_map map = { .number = judge_list(&all, buffer, size) };

	if (map.number != 0)
		return map;
	uint8_t *bytes = free_bytes(&all, limit);
	for (uint64_t at = 0; at < limit; at++) {
		if (bytes[at] == 0)
			continue;
		if (at == 0 || bytes[at - 1] == 0)
			map.range[map.count++].first = at;
		map.range[map.count - 1].last = at;
	}
	free(bytes);
	return map;
}

/* #111: all bytes of the image are free; two ranges never touch, so they are in one. */
static bool all_free(const uint8_t *bytes, uint64_t limit, uint64_t base, uint64_t image_size)
{
	if (base > limit || image_size > limit - base)
		return false;
	for (uint64_t i = 0; i < image_size; i++)
		if (bytes[base + i] == 0)
			return false;
	return true;
}

/* #111: every base from 0 on. */
static struct second_place try_bases(const uint8_t *bytes, uint64_t limit, uint64_t image_size)
{
	for (uint64_t base = 0; base < limit; base += 4096)
		if (legal_base(base, image_size) && all_free(bytes, limit, base, image_size))
			return (struct second_place){ .base = base };
	return (struct second_place){ .number = 37 };
}

struct second_place second_place_small(const uint8_t *buffer, size_t size, uint64_t image_size, uint64_t limit)
{
	struct resources all = { .number = 0 };
	const uint64_t number = judge_list(&all, buffer, size);

	if (number != 0)
		return (struct second_place){ .number = number };
	if (refuse_size(image_size))
		return (struct second_place){ .number = 36 };
	uint8_t *bytes = free_bytes(&all, limit);
	const struct second_place place = try_bases(bytes, limit, image_size);
	free(bytes);
	return place;
}
