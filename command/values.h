/* Values in a text: bytes apart, a number with its width, or the words of a choice. */
#ifndef COMMAND_VALUES_H
#define COMMAND_VALUES_H

#include <stdbool.h>

#include "names.h"
#include "text.h"

/* The most bytes of a value: what a sheet's length field holds. */
#define MOST_VALUE ((size_t)65535)

/* Where a value stands: the setting by its name, or NULL; how long it must be, 0 where the value
   says so itself; and whether a number may stand there. */
struct wanted {
	const struct label *label;
	size_t length;
	bool number;
};

char *trim_blanks(char *text);
bool take_value(const struct text *text, const struct wanted *wanted, char *written, uint8_t *bytes,
		size_t *length);

#endif
