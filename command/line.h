/* The command line taken apart: its words, its options and their values. */
#ifndef COMMAND_LINE_H
#define COMMAND_LINE_H

#include "command.h"

/* What is wrong with an option, the option between two texts; no option where nothing is. */
struct fault {
	const char *before, *option, *after;
};

/* The words in order, and the options. */
struct line {
	char **word;
	int count;
	int before;         /* how many of the words stand before `--` */
	struct options options;
	struct fault fault; /* the first of them */
};

const char *name_option(unsigned options);
struct line take_apart(int count, char **argument);

#endif
