/* The modules of a drawn image: one file with sections, some of them modules. */
#ifndef PAJURENDA_INSIDE_H
#define PAJURENDA_INSIDE_H

#include <stdint.h>

#include "../make/module.h"

#define MOST_INSIDE 3

/* Each module with its place in the file, and the file's size (0 for no file). */
struct inside {
	uint64_t count, size;
	uint64_t at[MOST_INSIDE];
	struct module module[MOST_INSIDE];
};

/* The file drawn; and made at a place. */
void draw_inside(struct inside *inside);
void put_inside(const struct inside *inside, uint8_t *image, uint64_t at);

#endif
