/*
 * What a map has, and what reserved ranges took away from it. The library says which bytes are free;
 * asked once more, of the same list with nothing reserved in it, it says which bytes would be.
 */
#include "memory.h"

#include <string.h>

#define SYSTEM_MEMORY 0
#define MEMORY_RESERVED 5

/* A resource type that doesn't count. */
#define MEMORY_MAPPED_IO 1

/* Where a resource's type stands in its block. */
#define TYPE_AT 24

/* The map; the library's number. */
uint32_t make_map(const struct bytes *dump, struct map *map)
{
	uint8_t answer[PAJURENDA_MAP_BYTES] = { 0 };
	const uint32_t number = pajurenda_map(dump->at, dump->length, map->at, sizeof map->at, answer,
					      sizeof answer);
	map->count = (size_t)pajurenda_field(answer, PAJURENDA_MAP_COUNT);
	return number;
}

/* One of its free ranges. */
struct span span_at(const struct map *map, size_t i)
{
	return (struct span){ pajurenda_free_first(map->at, i), pajurenda_free_last(map->at, i) };
}

/* The next resource of a type that counts; false where there is none left, or the list is refused. */
bool next_resource(struct resources *all, struct resource *resource)
{
	uint8_t *block = all->block;
	while (!all->done) {
		all->done = pajurenda_handoff(all->dump->at, all->dump->length, pajurenda_next(block), block,
					      sizeof all->block) != PAJURENDA_ACCEPTED || pajurenda_is_end(block);
		*resource = (struct resource){ .place = pajurenda_field(block, PAJURENDA_HANDOFF_PLACE),
					       .type = pajurenda_field(block, PAJURENDA_HANDOFF_RESOURCE),
					       .start = pajurenda_field(block, PAJURENDA_HANDOFF_START),
					       .size = pajurenda_field(block, PAJURENDA_HANDOFF_SIZE) };
		if (pajurenda_field(block, PAJURENDA_HANDOFF_KIND) == PAJURENDA_BLOCK_RESOURCE &&
		    (resource->type == SYSTEM_MEMORY || resource->type == MEMORY_RESERVED))
			return true;
	}
	return false;
}

/* The reserved resources of a list that has a map, and the map that it would have without them. Their
   type is changed in our own copy of the dump, which is good for nothing else then. False where the
   library gives no such map. */
bool take_away(struct bytes *dump, struct resource *reserved, size_t *count, struct map *memory)
{
	struct resources all = { .dump = dump };
	struct resource one;
	*count = 0;
	while (next_resource(&all, &one)) {
		if (one.type != MEMORY_RESERVED || *count == MOST_FREE)
			continue;
		reserved[(*count)++] = one;
		memset(dump->at + one.place + TYPE_AT, 0, 4);
		dump->at[one.place + TYPE_AT] = MEMORY_MAPPED_IO;
	}
	return make_map(dump, memory) == PAJURENDA_ACCEPTED;
}

/* The bytes that a reserved resource has of a range of memory; false where it has none. */
bool overlap(const struct resource *reserved, struct span memory, struct span *both)
{
	if (reserved->size == 0)
		return false;
	const uint64_t last = reserved->start + (reserved->size - 1);
	both->first = reserved->start > memory.first ? reserved->start : memory.first;
	both->last = last < memory.last ? last : memory.last;
	return both->first <= both->last;
}
