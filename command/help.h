/* The subcommands and what the command says of itself. */
#ifndef COMMAND_HELP_H
#define COMMAND_HELP_H

#include "command.h"

/* Commands of two words with the same first: what is told where the second is missing or another. */
struct group {
	const char *name, *missing, *none;
};

const struct command *find_command(char **word);
const struct group *find_group(const char *word);
const struct command *first_of_group(const char *word);
int count_words(const struct command *command);
const char *find_instead(const char *word);
enum status show_help(const struct command *command);
enum status show_version(void);
const char *kit_name(void);
const char *archive_digest(void);

#endif
