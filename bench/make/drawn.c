/* The one sequence of numbers that follow from a seed. */
#include "drawn.h"

static uint64_t state = 1;

/* The sequence starts anew; a state of 0 would stay 0. */
void seed(uint64_t start)
{
	state = start == 0 ? 1 : start;
}

/* One number of 64 bits. */
uint64_t any_number(void)
{
	state ^= state >> 12;
	state ^= state << 25;
	state ^= state >> 27;
	return state * UINT64_C(2685821657736338717);
}

/* One number below a bound. */
uint64_t below(uint64_t bound)
{
	return (any_number() >> 16) % bound;
}
