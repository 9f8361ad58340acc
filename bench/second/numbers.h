/* Numbers in lent bytes, for the files of the second reader. */
#ifndef BENCH_SECOND_NUMBERS_H
#define BENCH_SECOND_NUMBERS_H

#include <stdbool.h>
#include <stdint.h>

/* Sources: all numbers are little-endian. */
static inline uint64_t little(const uint8_t *bytes, uint64_t at, uint64_t width)
{
	uint64_t value = 0;
	for (uint64_t i = width; i > 0; i--)
		value = value * 256 + bytes[at + i - 1];
	return value;
}

/* "Moving": lowest twelve bits zero, base + image size <= 2^32, for any two numbers; a base of 2^32 or more never is legal. */
static inline bool legal_base(uint64_t base, uint64_t size)
{
	const uint64_t two32 = UINT64_C(4294967296);
	return base < two32 && base % 4096 == 0 && size <= two32 - base;
}

#endif
