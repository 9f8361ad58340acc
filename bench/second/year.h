/* The second reader's player of a year of releases: request #113, written apart from the library. */
#ifndef BENCH_SECOND_YEAR_H
#define BENCH_SECOND_YEAR_H

#include <stdint.h>

#include "second.h"

/* #105, #106: what one release call gets besides the image. */
struct second_order {
	const uint8_t *sheet;
	uint64_t sheet_length;
	uint64_t new_base;
	const uint8_t *owners;
	uint64_t owners_length;
	uint64_t owner;
};

/* What must be said of the calls: one answer for each (or NULL), and the image after the last of them, as long as the vendor's. */
struct second_wanted {
	struct second_released *answers;
	uint8_t *image;
};

/*
 * The calls one after the other on an image that starts as the vendor's. None is played on the image: each is judged by
 * the vendor image alone, the sheets of the accepted ones are applied in order at the vendor's base, and what comes of
 * that is moved once, to the last accepted base. The answer and the list are those that an audit of the image against
 * the vendor's must give: explained, no strays; 20 where the list is too short. A vendor image that isn't read gives its
 * number and index and one of edition 1 gives 28; then nothing is written.
 */
struct second_audited second_year(const uint8_t *vendor, uint64_t length,
				  const struct second_order *orders, uint64_t count,
				  const struct second_wanted *wanted,
				  uint32_t *places, uint64_t places_count);

#endif
