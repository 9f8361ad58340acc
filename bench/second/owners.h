/* The owner list inside the second reader: request #106. */
#ifndef BENCH_SECOND_OWNERS_H
#define BENCH_SECOND_OWNERS_H

#include <stdbool.h>
#include <stdint.h>

#include "sheet.h"

/* #106: the lent list, and who asks for the release. */
struct owners {
	const uint8_t *bytes;
	uint64_t length;
	uint64_t caller;
};

/* #106: one range of the region. */
struct range {
	uint64_t offset, length, owner;
};

/* Refusal 23, for a region of z bytes. */
bool second_owners_refused(const struct owners *o, uint64_t z);

/* Refusal 24, past 23 and 15. */
bool second_owners_outside(const struct owners *o, const struct sheet *s);

#endif
