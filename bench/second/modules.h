/* The modules inside the second reader: request #107. */
#ifndef BENCH_SECOND_MODULES_H
#define BENCH_SECOND_MODULES_H

#include <stdbool.h>
#include <stdint.h>

#include "second.h"

/* #107: a module as it is shown, and what its headers say about addresses. */
struct module {
	struct second_module shown;
	uint64_t table, sections;	/* the first section header's place, and how many there are */
	uint64_t stripped;		/* TE alone: StrippedSize */
	uint64_t address, used_up;	/* the relocation directory: relative address and size, 0 where there is none */
};

/* #107: what the earlier checks found, then what the passes over the modules find. */
struct modules {
	const uint8_t *image;
	uint64_t length, V, f, E, c, z;
	uint8_t *marks;			/* one for each byte of the image: 1 where no further word may have it */
	struct module *module;
	uint64_t count, room;
	struct second_word *word;	/* the words of a move: the base word, the patch words, those of the modules */
	uint64_t words, words_room;
};

/* One more word of a move; the base word is to be the first. */
void second_modules_word(struct modules *m, uint64_t place, uint64_t width);

/* Refusal 25, past 14, the list holding the base word and the patch words: finds the modules. */
bool second_modules_refused(struct modules *m);

/* Refusal 26, past 25: finds the modules' words. */
bool second_modules_overlap(struct modules *m);

/* Refusal 27, past 25. */
bool second_modules_types(const struct modules *m);

/* What the passes have asked for goes back; the lists are empty then. */
void second_modules_free(struct modules *m);

#endif
