/* The command line: options anywhere, the subcommand and its words. */
#ifndef COMMAND_OPTIONS_H
#define COMMAND_OPTIONS_H

#include "command.h"

enum status run_command(int count, char **word);

#endif
