/* What the files of the apply part share: a sheet being drafted. */
#ifndef BENCH_SHEET_CASES_H
#define BENCH_SHEET_CASES_H

#include "cases.h"

#define MOST_FIELDS 257

/* "The release sheet": its contents; the bodies' bytes follow a rule of position and flavour. */
struct draft {
	uint64_t identity, revision, extended, m, length, flavour;
	struct {
		uint64_t offset, length, body;
	} field[MOST_FIELDS];
};

extern struct draft draft;

/* sheet_draft.c */
void sheet_start(unsigned k);
void draft_start(void);
void draft_field(uint64_t offset, uint64_t length);
void draft_standard(void);
void draft_scattered(void);
void draft_random(void);
void draft_bodies(void);
void write_draft(void);
void apply_draft(uint64_t number);
void apply_one(uint64_t offset, uint64_t length, uint64_t number);
void apply_two(uint64_t offset, uint64_t length, uint64_t next_offset, uint64_t next_length,
	       uint64_t number);

/* sheet_faults.c */
void sheet_cut(void);
void sheet_heads(unsigned k);
void sheet_lengths(unsigned k);
void sheet_bodies(unsigned k);
void sheet_order(unsigned k);
void sheet_identity(unsigned k);
void sheet_bounds(unsigned k);
void sheet_wrap(unsigned k);
void sheet_together(unsigned k);

/* sheet_extended.c */
void sheet_numbers(unsigned k);
void sheet_older(void);
void sheet_below(void);
void sheet_number_order(unsigned k);

#endif
