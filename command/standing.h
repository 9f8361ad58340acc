/* What stands where a file is to be written. */
#ifndef COMMAND_STANDING_H
#define COMMAND_STANDING_H

#include "command.h"

enum status tell_standing(const char *name);

#endif
