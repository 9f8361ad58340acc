/* Sheets folded into one by the library, and what later sheets set over earlier ones. */
#ifndef COMMAND_FOLDING_H
#define COMMAND_FOLDING_H

#include "naming.h"

/* The sheets in the order they were applied, the pile that the library is given, and the sheet that it makes of it. */
struct folding {
	struct named *sheets;
	size_t count;
	struct bytes pile;
	struct bytes folded;
	struct named image; /* for the names alone; no name where it isn't given */
	struct naming naming;
};

uint32_t fold_some(struct folding *folding, size_t first, size_t count);
enum status refuse_fold(struct folding *folding, uint32_t number);
enum status show_over(const struct folding *folding);

#endif
