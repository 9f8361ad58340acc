/* The components that lie in a file of several, each found by asking the library. */
#ifndef COMMAND_COMPONENTS_H
#define COMMAND_COMPONENTS_H

#include <stdbool.h>

#include "command.h"
#include "pajurenda.h"

/* A component that the library reads at its place. */
struct component {
	uint64_t place, length;
	uint8_t reading[PAJURENDA_READ_BYTES];
};

/* A file that is being looked through. */
struct looking {
	const struct bytes *file;
	uint64_t next;
	unsigned asked; /* how many places were asked for */
};

void start_looking(struct looking *looking, const struct bytes *file);
bool next_component(struct looking *looking, struct component *component);
char letter_of(const struct component *component);
bool is_all(const struct bytes *file, uint64_t at, uint64_t length, uint8_t byte);
void say_components(const struct bytes *file);

#endif
