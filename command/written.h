/* An entry as a line of a text has it: by offset or by name, its value, and what that replaces. */
#ifndef COMMAND_WRITTEN_H
#define COMMAND_WRITTEN_H

#include "naming.h"
#include "values.h"

struct written {
	const struct label *label; /* NULL where it is by its offset */
	uint64_t offset;
	size_t length;
	bool was; /* the line says what is replaced */
	uint8_t bytes[MOST_VALUE], old[MOST_VALUE];
};

bool take_written(const struct text *text, const struct names *names, char *line,
		  struct written *written);

#endif
