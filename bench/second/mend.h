/* The second reader's mending of a shipped file: request #110, written apart from the library. */
#ifndef BENCH_SECOND_MEND_H
#define BENCH_SECOND_MEND_H

#include <stdint.h>

#include "second.h"

/*
 * The answer and the list are those of the audit before the mending, so the strays are the bytes that were set and
 * explained is 1 only where there were none. Refusals: the vendor image's, 28, then 19, 18 and 20; none of them
 * changes a byte of the shipped file or of the list, and 20 keeps base and counts. The two files are not the same memory.
 */
struct second_audited second_mend(const uint8_t *vendor, uint64_t vendor_length,
				  uint8_t *shipped, uint64_t shipped_length,
				  uint32_t *places, uint64_t places_count);

#endif
