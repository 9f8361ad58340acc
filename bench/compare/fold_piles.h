/* Piles of sheets for the comparison and the speed table of folds. */
#ifndef PAJURENDA_FOLD_PILES_H
#define PAJURENDA_FOLD_PILES_H

#include <stddef.h>
#include <stdint.h>

/* A pile that is being made: its bytes, where its last sheet stands, and how many entries that has. */
struct pile {
	uint8_t *at;
	size_t length, room;
	size_t sheet;
	uint64_t count;
	uint64_t identity, revision, extended; /* of the sheets that come */
};

/* A pile of no sheets; the memory stays. */
void clear_pile(struct pile *pile);

/* A sheet that will have so many entries; then each of them, its bytes drawn, by ascending offset. */
void begin_sheet(struct pile *pile, uint64_t entries);
void add_run(struct pile *pile, uint64_t offset, uint64_t length);

/* A sheet of one entry. */
void add_sheet(struct pile *pile, uint64_t offset, uint64_t length);

/* A sheet of up to so many entries of up to so many bytes, all within offsets from `low` up to `high`. */
void draw_pile_sheet(struct pile *pile, uint64_t entries, uint64_t bytes, uint64_t low, uint64_t high);

#endif
