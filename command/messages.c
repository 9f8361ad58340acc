/* Errors on standard error. */
#include "messages.h"

#include <errno.h>
#include <string.h>

#include "signs.h"

/* How much of a word is shown. */
#define MOST_SHOWN ((size_t)40)

/* A sign of so many bytes as it was given; one that shows nothing by itself, or bytes that are none, as `?`: no
   name makes a line of its own, or turns the one it stands in around. */
static void put_sign(FILE *to, const char *at, size_t length, uint32_t sign)
{
	if (sign == NO_SIGN || is_hidden(sign))
		fputc('?', to);
	else
		fwrite(at, 1, length, to);
}

/* A text's first signs, in at most so many bytes; how many bytes they have. */
size_t put_signs(FILE *to, const char *text, size_t most)
{
	uint32_t sign = 0;
	size_t length, shown = 0;
	for (; text[shown] != 0; shown += length) {
		length = take_sign(text + shown, &sign);
		if (length > most - shown)
			break;
		put_sign(to, text + shown, length, sign);
	}
	return shown;
}

/* A name as it was given. */
void put_name(FILE *to, const char *name)
{
	(void)put_signs(to, name, SIZE_MAX);
}

/* A word; of a long one its start, and two dots. */
void put_start(FILE *to, const char *word)
{
	fputs(word[put_signs(to, word, MOST_SHOWN)] == 0 ? "" : "..", to);
}

/* The same in a message. */
void say_name(const char *name)
{
	put_name(stderr, name);
}

/* An input or output error, with the system's reason. */
enum status fail_at(const char *name, int reason)
{
	fputs("pajurenda: ", stderr);
	say_name(name);
	fprintf(stderr, ": %s\n", reason == NOT_REGULAR    ? "Not a regular file"
				  : reason == TAKEN_BEFORE ? "standard input is given for two files"
							   : strerror(reason));
	return FAILED;
}

/* There is no memory for what a file wants. */
enum status fail_no_memory(const char *name)
{
	return fail_at(name, ENOMEM);
}

/* An answer that the header does not allow. */
enum status fail_answer(void)
{
	fputs("pajurenda: the library's answer is not one of its header's\n", stderr);
	return FAILED;
}

/* Wrong usage, of a subcommand where one is named; the word is shown between the two texts. */
enum status fail_usage(const char *command, const char *before, const char *word,
		       const char *after)
{
	fputs("pajurenda: ", stderr);
	if (command != NULL)
		fprintf(stderr, "%s: ", command);
	fputs(before, stderr);
	say_name(word);
	fprintf(stderr, "%s (see pajurenda %s%s--help)\n", after, command == NULL ? "" : command,
		command == NULL ? "" : " ");
	return FAILED;
}

/* OUT is an input that it must not replace, by the name that the usage has for it. */
enum status fail_lost(const char *command, const char *input)
{
	return fail_usage(command, "OUT is ", input, " itself, which would be lost");
}

/* A command that is gone, and what to type instead. */
enum status fail_gone(const char *command, const char *instead)
{
	fprintf(stderr, "pajurenda: %s is gone: %s (see pajurenda release --help)\n", command, instead);
	return FAILED;
}
