/* The header, and little-endian numbers in byte buffers, for the files of this folder. */
#ifndef PAJURENDA_FIELDS_H
#define PAJURENDA_FIELDS_H

#include <stddef.h>
#include <stdint.h>

#include "pajurenda.h"

/* A number of some bytes at a position. */
static inline uint64_t get_number(const uint8_t *bytes, size_t at, unsigned width)
{
	uint64_t value = 0;
	for (unsigned i = 0; i < width; i++)
		value |= (uint64_t)bytes[at + i] << (8 * i);
	return value;
}

/* A number written at a position; bits above the width are left out. */
static inline void put_number(uint8_t *bytes, size_t at, unsigned width, uint64_t value)
{
	for (unsigned i = 0; i < width; i++)
		bytes[at + i] = (uint8_t)(value >> (8 * i));
}

/* The 64-bit fields of an answer, one after the other. */
static inline void put_fields(uint8_t *answer, const uint64_t *fields, size_t count)
{
	for (size_t i = 0; i < count; i++)
		put_number(answer, 8 * i, 8, fields[i]);
}

#endif
