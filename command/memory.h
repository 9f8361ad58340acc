/* The memory that a list of hand-off blocks names: what the library's map of it has, and what its
   reserved ranges took away. */
#ifndef COMMAND_MEMORY_H
#define COMMAND_MEMORY_H

#include <stdbool.h>

#include "pajurenda.h"
#include "refusals.h"

/* The most ranges of a map, and so the most reserved ones of a list that has one. */
#define MOST_FREE ((size_t)(PAJURENDA_MAP_ROOM / PAJURENDA_FREE_BYTES))

/* A map as the library writes it. */
struct map {
	uint8_t at[PAJURENDA_MAP_ROOM];
	size_t count;
};

/* A resource of the two types that count: where its block stands, and what it has. */
struct resource {
	uint64_t place, type, start, size;
};

/* Bytes by the first and the last of them. */
struct span {
	uint64_t first, last;
};

/* A cursor through the resources of an accepted list. */
struct resources {
	const struct bytes *dump;
	uint8_t block[PAJURENDA_HANDOFF_BYTES];
	bool done;
};

uint32_t make_map(const struct bytes *dump, struct map *map);
struct span span_at(const struct map *map, size_t i);
bool next_resource(struct resources *all, struct resource *resource);
bool take_away(struct bytes *dump, struct resource *reserved, size_t *count, struct map *memory);
bool overlap(const struct resource *reserved, struct span memory, struct span *both);
enum status refuse_memory(uint32_t number, const struct named *dump, uint64_t size);

#endif
