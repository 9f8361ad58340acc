/* The fields of the FSP header and of the tables after it, by the names that people know them by. */
#ifndef COMMAND_FIELDS_H
#define COMMAND_FIELDS_H

#include <stdio.h>

#include "letters.h"

uint64_t field_at(const struct letters *w, uint64_t at);
void put_field(FILE *to, uint64_t field);

#endif
