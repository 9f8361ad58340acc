/* The one sequence of numbers that follow from a seed: cases, comparisons and tests draw from it. */
#ifndef BENCH_MAKE_DRAWN_H
#define BENCH_MAKE_DRAWN_H

#include <stdint.h>

/* Its start, which isn't 0; one number of 64 bits; one below a bound of at most 2^48. */
void seed(uint64_t start);
uint64_t any_number(void);
uint64_t below(uint64_t bound);

#endif
