/* What the files of the owners' part share: an owner list being drafted. */
#ifndef BENCH_OWNER_CASES_H
#define BENCH_OWNER_CASES_H

#include "sheet_cases.h"

#define MOST_HELD 400

/* #106: the ranges, how many bytes of them are lent, and who asks. */
struct held {
	uint64_t count, length, caller;
	struct {
		uint64_t offset, length, owner;
	} range[MOST_HELD];
};

extern struct held held;

/* owner_draft.c */
void held_start(uint64_t caller);
void held_range(uint64_t offset, uint64_t length, uint64_t owner);
void held_standard(uint64_t caller);
void held_random(void);
void release_lent(uint64_t len, uint64_t base, uint64_t number, uint64_t index);
void release_held_on(uint64_t base, uint64_t number);
void release_held(uint64_t base, uint64_t number);
void try_list(uint64_t number);
void try_field(uint64_t offset, uint64_t length, uint64_t number);

/* owner_rules.c: refusal 23. */
void owner_counts(void);
void owner_empty(unsigned k);
void owner_overlap(unsigned k);
void owner_bounds(unsigned k);
void owner_narrow(void);
void owner_numbers(unsigned k);
void owner_callers(unsigned k);
void owner_lengths(unsigned k);

/* owner_bytes.c: refusal 24. */
void owner_edges(unsigned k);
void owner_gap(unsigned k);
void owner_span(unsigned k);
void owner_which(unsigned k);
void owner_none(unsigned k);
void owner_many(void);
void owner_single(unsigned k);
void owner_sample(void);

#endif
