/* What stands in an image after its first volume, which is all that a move walks: for showing alone. */
#ifndef COMMAND_VOLUMES_H
#define COMMAND_VOLUMES_H

#include <stdbool.h>
#include <stdio.h>

#include "command.h"

/* A stretch: a volume by its mark, counted from 1, or bytes that are none, with number 0. */
struct stretch {
	uint64_t place, length;
	uint64_t number;
};

/* An image's stretches, one after the other. */
struct stretches {
	const struct bytes *image;
	uint64_t next, volumes;
};

void start_stretches(struct stretches *stretches, const struct bytes *image);
bool next_stretch(struct stretches *stretches, struct stretch *stretch);
void show_volumes(const struct bytes *image);
void write_volumes(const struct bytes *image);
void record_unwalked(FILE *to, const struct bytes *image);
void tell_unwalked(const char *name, const struct bytes *image);

#endif
