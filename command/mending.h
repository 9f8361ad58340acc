/* A mending: an audit whose strays are put back in a copy of the shipped file. */
#ifndef COMMAND_MENDING_H
#define COMMAND_MENDING_H

#include "checked.h"

bool is_mending(const struct check *check);
bool put_back(struct check *check);
enum status show_mended(const struct check *check, unsigned options);
void write_mended(const struct check *check);

#endif
