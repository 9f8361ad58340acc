/* The refusals of a patch entry, each with the values that decided. */
#ifndef COMMAND_REFUSED_ENTRY_H
#define COMMAND_REFUSED_ENTRY_H

#include "letters.h"

void say_letter(const char *name, uint64_t value);
void say_type(const struct letters *w, uint64_t index);
void say_reserved(const struct letters *w, uint64_t index);
void say_place(const struct letters *w, uint64_t index);
void say_overlap(const struct letters *w, uint64_t index);

#endif
