/* What the command line asks for: a subcommand with enough words and its own options, or help, which is everywhere. */
#include "options.h"

#include <stdbool.h>
#include <stdio.h>
#include <stdlib.h>
#include <string.h>

#include "clock.h"
#include "files.h"
#include "help.h"
#include "json.h"
#include "line.h"
#include "messages.h"

/* A word that the command can do without, as the usage has it. */
static bool is_optional(const char *name)
{
	return name[0] == '[';
}

/* A word that stands for one or more, as the usage has it. */
static bool is_many(const char *name)
{
	return strstr(name, "..") != NULL;
}

/* Too few words, each that is missing by its name. */
static enum status fail_missing(const struct command *command, int given)
{
	char missing[64] = "";
	int count = 0;
	for (int i = given; command->words[i] != NULL && !is_optional(command->words[i]); i++, count++) {
		strcat(missing, count == 0 ? "" : " and ");
		strcat(missing, command->words[i]);
	}
	return fail_usage(command->name, missing, "", count == 1 ? " is missing" : " are missing");
}

/* Too few words where one of the names stands for several: which is missing can't be said. */
static enum status fail_few(const struct command *command, int given)
{
	const bool record = command->run == do_verify;
	char after[100];
	snprintf(after, sizeof after, " are wanted: %s%s %s %s, not %d", record ? "RECORD SHIPPED, or " : "",
		 command->words[0], command->words[1], command->words[2], given);
	return fail_usage(command->name, record ? "two words or more" : "three words or more", "", after);
}

/* A subcommand with a word that stands for one or more. */
static enum status run_with_many(const struct command *command, char **word,
				 const struct options *options)
{
	int given = 0;
	while (word[given] != NULL)
		given++;
	return given < (command->run == do_verify ? 2 : 3) ? fail_few(command, given) : command->run(word, options);
}

/* The subcommand with its words, of which there must be enough and no more; with a list there are
   none. */
static enum status run_with(const struct command *command, const struct line *line)
{
	char **word = line->word + count_words(command);
	int given = 0;
	if ((line->options.given & LIST) != 0)
		return word[0] == NULL ? command->run(word, &line->options)
				       : fail_usage(command->name, "with --list no file is named: \"",
						    word[0], "\"");
	if (command->words[1] != NULL && is_many(command->words[1]))
		return run_with_many(command, word, &line->options);
	if (is_many(command->words[0]) && word[0] != NULL && word[1] != NULL)
		return command->run(word, &line->options);
	while (command->words[given] != NULL && word[given] != NULL)
		given++;
	if (command->words[given] != NULL && !is_optional(command->words[given]))
		return fail_missing(command, given);
	if (word[given] != NULL)
		return fail_usage(command->name, "one word too many: \"", word[given], "\"");
	return command->run(word, &line->options);
}

/* A word that names no subcommand: one that is gone, a group's first word, or any other. */
static enum status fail_unknown(char **word)
{
	const char *instead = find_instead(word[0]);
	if (instead != NULL)
		return fail_gone(word[0], instead);
	const struct group *group = find_group(word[0]);
	if (group == NULL)
		return fail_usage(NULL, "unknown command \"", word[0], "\"");
	if (word[1] == NULL)
		return fail_usage(word[0], group->missing, "", "");
	return fail_usage(word[0], "\"", word[1], group->none);
}

/* help [COMMAND]; help itself has the general help. */
static enum status help_on(const struct line *line)
{
	char **word = line->word + 1;
	const bool general = word[0] == NULL || strcmp(word[0], "help") == 0;
	const struct command *command = general ? NULL : find_command(word);
	const int used = command == NULL ? 1 : count_words(command);
	if (!general && command == NULL)
		command = first_of_group(word[0]);
	if (!general && command == NULL)
		return fail_unknown(word);
	if (line->count > 1 + used)
		return fail_usage(NULL, "help: one word too many: \"", word[used], "\"");
	return show_help(command);
}

/* Help on a subcommand of so many words is asked for: by an option, or by the only word more. */
static bool wants_help(const struct line *line, int words)
{
	return (line->options.given & HELP) != 0 ||
	       (line->count == words + 1 && line->before == line->count &&
		strcmp(line->word[words], "help") == 0);
}

/* A line that names a subcommand. */
static enum status run_named(const struct line *line)
{
	const struct command *command = find_command(line->word);
	const struct command *group = first_of_group(line->word[0]);
	if (strcmp(line->word[0], "help") == 0)
		return help_on(line);
	if (command == NULL && group != NULL && wants_help(line, 1))
		return show_help(group);
	if (command == NULL)
		return fail_unknown(line->word);
	if (wants_help(line, count_words(command)))
		return show_help(command);
	const unsigned others = line->options.given & ~(command->options | SECONDS);
	if (others != 0)
		return fail_usage(command->name, "takes no option ", name_option(others), "");
	if ((line->options.given & (NAMES | STRICT)) == STRICT)
		return fail_usage(command->name, "--names-strict goes with --names FILE", "", "");
	if (line->options.owner_count > 1 && (command->run != do_verify || (line->options.given & LIST) != 0))
		return fail_usage(command->name, "", "--owner", " is given twice");
	if (!set_clock(command->name, &line->options))
		return FAILED;
	let_replace((line->options.given & REPLACE) != 0);
	want_json(command->name, (line->options.given & JSON) != 0);
	const enum status status = run_with(command, line);
	end_documents();
	return status;
}

/* What a line asks for. */
static enum status run_line(const struct line *line)
{
	const struct command *command = line->count == 0 ? NULL : find_command(line->word);
	const bool gone = line->count > 0 && find_instead(line->word[0]) != NULL;
	if (line->fault.option != NULL && !gone)
		return fail_usage(command == NULL ? NULL : command->name, line->fault.before,
				  line->fault.option, line->fault.after);
	if (line->count > 0)
		return run_named(line);
	if ((line->options.given & HELP) != 0)
		return show_help(NULL);
	return (line->options.given & VERSION) != 0 ? show_version()
						    : fail_usage(NULL, "no command", "", "");
}

/* What the whole command line asks for. */
enum status run_command(int count, char **word)
{
	const struct line line = take_apart(count, word);
	const enum status status = run_line(&line);
	free(line.options.owner_at);
	return status;
}
