/* A dump with a list of hand-off blocks, read as far as the list can go. */
#ifndef COMMAND_DUMP_H
#define COMMAND_DUMP_H

#include <stdbool.h>

#include "refusals.h"

bool load_dump(struct named *dump);
uint32_t walk_dump(const struct bytes *dump, uint8_t *answer);

#endif
