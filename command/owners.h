/* Owner lists, from a text or as bytes; the library judges them. */
#ifndef COMMAND_OWNERS_H
#define COMMAND_OWNERS_H

#include <stdbool.h>

#include "command.h"

/* A list as the library takes it, and the lines of its ranges; no lines where the file has the bytes
   themselves. */
struct owners {
	const char *name;
	struct bytes list;
	size_t *line;
};

/* A range as its bytes say. */
struct owned {
	uint64_t offset, length, owner;
};

bool load_owners(const char *name, struct owners *owners);
bool take_owners(const char *name, struct bytes *file, struct owners *owners);
void free_owners(struct owners *owners);
size_t count_ranges(const struct bytes *list);
struct owned range_at(const struct bytes *list, size_t index);
size_t find_range(const struct bytes *list, uint64_t offset);

#endif
