/* The comparison of maps and places: its calls on both sides, and the cases that are made by hand. */
#ifndef BENCH_COMPARE_MAP_H
#define BENCH_COMPARE_MAP_H

#include <stdbool.h>
#include <stddef.h>
#include <stdint.h>

#include "../second/map.h"

/* Both sides on the list that is made; what the second reader says, after every byte was the same. */
struct second_map same_map(size_t room, bool may_be_short);
struct second_place same_place(uint64_t size, bool may_be_short);

/* Each case has the answer that the document gives; how many there are. */
uint64_t try_cases(void);

#endif
