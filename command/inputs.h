/* The files that were read, by name, length and digest, for documents and pages. */
#ifndef COMMAND_INPUTS_H
#define COMMAND_INPUTS_H

#include <stdbool.h>

#include "command.h"

void note_inputs(bool noting);
void note_input(const char *name, const struct bytes *file, bool whole);
bool input_digest(const struct bytes *file, char *digits);
void forget_inputs(size_t from);
size_t count_inputs(void);
void json_inputs(size_t from, bool lines);

#endif
