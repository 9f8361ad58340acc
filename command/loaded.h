/* The files of a check, by words or by a record: what the two share. */
#ifndef COMMAND_LOADED_H
#define COMMAND_LOADED_H

#include "checked.h"

bool room_for_sheets(struct check *check, size_t sheets);
bool take_wanted(struct check *check, const struct options *options);
bool load_recorded(struct check *check, const struct options *options);

#endif
