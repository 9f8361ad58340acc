/* The release sheet inside the second reader: its form, its entries and what it is for. */
#ifndef BENCH_SECOND_SHEET_H
#define BENCH_SECOND_SHEET_H

#include <stdbool.h>
#include <stdint.h>

/* Demand 2, #102: what makes an image the one that a sheet is for. */
struct identity {
	uint64_t image, revision, extended;
};

/* "The release sheet": the lent bytes, and its count m once refusal 15 has been judged. */
struct sheet {
	const uint8_t *bytes;
	uint64_t length;
	uint64_t m;
};

/* "The release sheet": one entry. */
struct field {
	uint64_t offset, length, body;
};

/* Refusal 15; where it isn't given, the sheet has its m. */
bool second_sheet_refused(struct sheet *s);

/* Past refusal 15: entry i below m, and the identity. */
struct field second_sheet_field(const struct sheet *s, uint64_t i);
struct identity second_sheet_identity(const struct sheet *s);

#endif
