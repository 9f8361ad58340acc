/* What the makers of large and of hostile images share. */
#ifndef BENCH_MAKE_LARGE_PARTS_H
#define BENCH_MAKE_LARGE_PARTS_H

#include "large.h"

void large_fails(const char *what);
uint64_t large_start(struct large *large, uint8_t *image);
void large_end(const struct large *large, uint8_t *image, uint64_t at);
uint64_t large_number(uint64_t *state, uint64_t bound);
void large_shuffle(uint64_t *state, uint64_t *list, uint64_t count);

#endif
