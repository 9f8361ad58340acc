/* The second reader's folding of sheets: request #114, written apart from the library. */
#ifndef BENCH_SECOND_FOLD_H
#define BENCH_SECOND_FOLD_H

#include <stdint.h>

/* Number 0, how many bytes the folded sheet has and how many entries; or 15, 16, 29, and zeros. */
struct second_folded {
	uint64_t number, length, count;
};

/* A pile of sheets into one, written from the output's first byte on; a refusal writes nothing, and what is after the sheet stays. */
struct second_folded second_fold(const uint8_t *pile, uint64_t pile_length, uint8_t *output, uint64_t room);

#endif
