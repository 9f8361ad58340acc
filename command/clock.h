/* The processor's time that a subcommand may take. */
#ifndef COMMAND_CLOCK_H
#define COMMAND_CLOCK_H

#include <stdbool.h>

#include "command.h"

bool set_clock(const char *command, const struct options *options);
void start_clock(const char *what);
void stop_clock(void);

#endif
