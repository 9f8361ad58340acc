/* The second reader's memory map and place for an image: request #111, written apart from the library. */
#ifndef BENCH_SECOND_MAP_H
#define BENCH_SECOND_MAP_H

#include <stddef.h>
#include <stdint.h>

/* #111: no more ranges of the two types than these, and so no more free ones: each begins where one of those begins or ends. */
#define SECOND_MAP_RANGES 128

/* #111: free memory from its first to its last byte, both in it. */
struct second_free {
	uint64_t first, last;
};

/* Number 0 and the free ranges from the lowest on, not touching one another; or 30..35, and no range. What isn't counted is 0. */
struct second_map {
	uint64_t number, count;
	struct second_free range[SECOND_MAP_RANGES];
};

/* Number 0 and the base; or 30..37, and base 0. */
struct second_place {
	uint64_t number, base;
};

/* The map of the list from its first byte on: by sorting, for ranges anywhere. */
struct second_map second_map(const uint8_t *buffer, size_t size);

/* The same, byte by byte: the memory below a limit of so many bytes, what is above being left out of the map. */
struct second_map second_map_small(const uint8_t *buffer, size_t size, uint64_t limit);

/* The lowest legal base with an image of so many bytes in one free range of the sorted map. */
struct second_place second_place(const uint8_t *buffer, size_t size, uint64_t image_size);

/* The same, each base tried byte by byte, in the memory below a limit. */
struct second_place second_place_small(const uint8_t *buffer, size_t size, uint64_t image_size, uint64_t limit);

#endif
