/* The command line taken apart: options before or after the words, `--` as their end. */
#include "line.h"

#include <stdbool.h>
#include <stdlib.h>
#include <string.h>

/* An option's name; where a value goes with it, what is told when it is missing. */
struct known {
	const char *name;
	unsigned option;
	const char *missing;
};

static const struct known option_names[] = {
	{ "-h", HELP, NULL },       { "--help", HELP, NULL },     { "--version", VERSION, NULL },
	{ "--bytes", BYTES, NULL }, { "--ranges", RANGES, NULL }, { "--words", WORDS, NULL },
	{ "-q", QUIET, NULL },      { "--quiet", QUIET, NULL },
	{ "--json", JSON, NULL },   { "--modules", MODULES, NULL },
	{ "--owners", OWNERS, " has no LIST after it" },
	{ "--owner", OWNER, " has no N after it" },
	{ "--report", REPORT, " has no FILE after it" },
	{ "--text", TEXT, " has no FILE after it" },
	{ "--list", LIST, " has no FILE after it" },
	{ "--reports", REPORTS, " has no FOLDER after it" },
	{ "--names", NAMES, " has no FILE after it" },
	{ "--names-strict", STRICT, NULL },
	{ "--must", MUST, " has no FILE after it" },
	{ "--base", AT_BASE, " has no BASE after it" },
	{ "--hex", AS_HEX, " has no FILE after it" },
	{ "--image", WITH_IMAGE, " has no IMAGE after it" },
	{ "--replace", REPLACE, NULL },
	{ "--record", RECORD, " has no FILE after it" },
	{ "--vendor-sha256", VENDOR_IS, " has no HEX after it" },
	{ "--no-record", NO_RECORD, NULL },
	{ "--after", AFTER, " has no RECORD after it" },
	{ "--seconds", SECONDS, " has no N after it" },
	{ "--note", NOTE, " has no TEXT after it" },
	{ "--number", KNOWN_BY, " has no TEXT after it" },
};

#define OPTION_NAMES (sizeof option_names / sizeof option_names[0])

/* The option that an argument is, up to a `=` where a value goes with it; NULL where it is none. */
static const struct known *find_option(const char *argument)
{
	for (size_t i = 0; i < OPTION_NAMES; i++) {
		const struct known *known = &option_names[i];
		const size_t length = strlen(known->name);
		if (strncmp(argument, known->name, length) == 0 &&
		    (argument[length] == 0 || (argument[length] == '=' && known->missing != NULL)))
			return known;
	}
	return NULL;
}

/* The name of the first option among the bits. */
const char *name_option(unsigned options)
{
	const char *name = "";
	for (size_t i = OPTION_NAMES; i > 0; i--)
		if ((options & option_names[i - 1].option) != 0)
			name = option_names[i - 1].name;
	return name;
}

/* A word that could be an option. `-` alone is none. */
static bool is_dashed(const char *word)
{
	return word[0] == '-' && word[1] != 0;
}

/* A fault of an option, unless one was found before. */
static void note(struct line *line, const char *before, const char *option, const char *after)
{
	if (line->fault.option == NULL)
		line->fault = (struct fault){ before, option, after };
}

/* Where the value of an option goes. */
static const char **place_of(struct options *options, unsigned option)
{
	switch (option) {
	case OWNERS: return &options->owners;
	case OWNER: return &options->owner;
	case REPORT: return &options->report;
	case TEXT: return &options->text;
	case LIST: return &options->list;
	case NAMES: return &options->names;
	case MUST: return &options->must;
	case AT_BASE: return &options->base;
	case AS_HEX: return &options->hex;
	case WITH_IMAGE: return &options->image;
	case RECORD: return &options->record;
	case AFTER: return &options->after;
	case VENDOR_IS: return &options->vendor;
	case SECONDS: return &options->seconds;
	case NOTE: return &options->note;
	case KNOWN_BY: return &options->number;
	default: return &options->reports;
	}
}

/* The value of an option, after its `=` or as the next argument; how many arguments more it takes. */
static int take_value(struct line *line, const struct known *known, char **argument)
{
	const char *inside = strchr(argument[0], '=');
	const char *value = inside != NULL ? inside + 1 : argument[1];
	const char **place = place_of(&line->options, known->option);
	if (inside == NULL && (value == NULL || is_dashed(value))) {
		note(line, "", known->name, known->missing);
		return 0;
	}
	if (known->option == OWNER && line->options.owner_at != NULL)
		line->options.owner_at[line->options.owner_count++] =
			(struct owner_at){ .value = value, .words = (size_t)line->count };
	else if (*place != NULL)
		note(line, "", known->name, " is given twice");
	if (*place == NULL)
		*place = value;
	return inside == NULL ? 1 : 0;
}

/* One argument before `--`: an option, or a word; how many arguments more it takes. */
static int take_argument(struct line *line, char **argument)
{
	const struct known *known = find_option(argument[0]);
	if (!is_dashed(argument[0]))
		line->word[line->count++] = argument[0];
	else if (known == NULL)
		note(line, "unknown option ", argument[0], "");
	if (known == NULL)
		return 0;
	line->options.given |= known->option;
	return known->missing == NULL ? 0 : take_value(line, known, argument);
}

/* The words stay in the array they came in, at its start, and end with a NULL as it does. */
struct line take_apart(int count, char **argument)
{
	struct line line = { .word = argument };
	int i = 0;
	line.options.owner_at = calloc((size_t)count + 1, sizeof *line.options.owner_at);
	for (; i < count && strcmp(argument[i], "--") != 0; i++)
		i += take_argument(&line, argument + i);
	line.before = line.count;
	for (i++; i < count; i++)
		line.word[line.count++] = argument[i];
	line.word[line.count] = NULL;
	for (size_t k = 0; k < line.options.owner_count; k++)
		line.options.owner_at[k].words -= line.options.owner_at[k].words > 0;
	return line;
}
