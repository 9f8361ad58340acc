/*
 * A text file taken line by line and word by word. A line ends with a line feed, with or without a
 * return before it, or with the file; blanks and tabs separate words; # starts a comment.
 */
#include "text.h"

#include <errno.h>
#include <stdio.h>
#include <stdlib.h>
#include <string.h>

#include "files.h"
#include "messages.h"
#include "numbers.h"
#include "pajurenda.h"

#define BLANKS " \t"

/* The longest number that is looked at. */
#define MOST_NUMBER 40

/* ---- the file ---- */

/* A loaded text gets a byte after it for the last line's end; false after a message. */
bool end_text(const char *name, struct bytes *file)
{
	uint8_t *at = file->length > PAJURENDA_MOST_IMAGE ? NULL : realloc(file->at, file->length + 1);
	if (at != NULL) {
		file->at = at;
		return true;
	}
	fail_at(name, file->length > PAJURENDA_MOST_IMAGE ? EFBIG : ENOMEM);
	free(file->at);
	file->at = NULL;
	return false;
}

/* A text in memory; false after a message. */
bool load_text(const char *name, struct bytes *file)
{
	return load(name, file) && end_text(name, file);
}

/* All lines of a loaded text; the mark that some editors put before the first is passed. */
struct text text_of(const char *name, const struct bytes *file)
{
	char *start = (char *)file->at, *end = start + file->length;
	if (file->length >= 3 && memcmp(start, "\xEF\xBB\xBF", 3) == 0)
		start += 3;
	return (struct text){ .name = name, .rest = start, .end = end };
}

/* The next line as a string; NULL after the last. */
char *next_line(struct text *text)
{
	char *line = text->rest;
	if (line == text->end)
		return NULL;
	char *end = memchr(line, '\n', (size_t)(text->end - line));
	text->rest = end == NULL ? text->end : end + 1;
	if (end == NULL)
		end = text->end;
	if (end > line && end[-1] == '\r')
		end--;
	*end = 0;
	text->length = (size_t)(end - line);
	text->line++;
	return line;
}

/* No character that a reader of the text would not see; false after a message. */
bool is_clean(const struct text *text, const char *line)
{
	char fault[40];
	for (size_t i = 0; i < text->length; i++) {
		const unsigned char c = (unsigned char)line[i];
		if ((c >= 32 && c != 127) || c == '\t')
			continue;
		snprintf(fault, sizeof fault, "control character 0x%02X", (unsigned)c);
		fail_line(text, fault);
		return false;
	}
	return true;
}

/* ---- words ---- */

/* The next word of a line; NULL before a comment and at the line's end. */
char *next_word(char **rest)
{
	char *word = *rest + strspn(*rest, BLANKS);
	char *end = word + strcspn(word, BLANKS "#");
	const bool more = *end != 0 && *end != '#';
	*end = 0;
	*rest = more ? end + 1 : end;
	return word == end ? NULL : word;
}

/* The start of a message on the line at hand. */
void begin_fault(const struct text *text)
{
	fputs("pajurenda: ", stderr);
	say_name(text->name);
	fprintf(stderr, ": line %zu: ", text->line);
}

/* What is wrong with the line at hand. */
enum status fail_line(const struct text *text, const char *fault)
{
	begin_fault(text);
	fprintf(stderr, "%s\n", fault);
	return FAILED;
}

/* A word in quotes after its name, which may be empty; of a long one its start. */
void say_word(const char *name, const char *word)
{
	fprintf(stderr, "%s%s\"", name, *name == 0 ? "" : " ");
	put_start(stderr, word);
	fputs("\" ", stderr);
}

/* What is wrong with a word of it. */
enum status fail_word(const struct text *text, const char *name, const char *word,
		      const char *fault)
{
	begin_fault(text);
	say_word(name, word);
	fprintf(stderr, "%s\n", fault);
	return FAILED;
}

/* A number that must fit its field; false after a message. */
bool take_field(const struct text *text, const struct field *field, const char *word,
		uint64_t *value)
{
	const enum number number = read_number(word, value);
	if (number == NUMBER && (field->bits >= 64 || *value >> field->bits == 0))
		return true;
	begin_fault(text);
	say_word(field->name, word);
	if (number != NO_NUMBER)
		fprintf(stderr, "does not fit %u bits", field->bits);
	else if (strlen(word) > MOST_NUMBER)
		fputs("is not a number", stderr);
	else
		say_how(word, field->other);
	fputc('\n', stderr);
	return false;
}
