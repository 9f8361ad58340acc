/*
 * An entry's line: `0x128 00 was 01`, `0x60 = 0x0000EEFF : 4`, `BypassRelay = Disabled was Enabled`. Here
 * it is only taken apart; whether the image has such a setting is the library's answer.
 */
#include "written.h"

#include <string.h>

#define BLANKS " \t"

/* A line taken apart: what stands before the value, the value, and what is replaced, or NULL. */
struct pieces {
	char head[MOST_NAME + 1];
	bool equals;
	char *value, *was;
};

/* ---- the pieces ---- */

/* A word stands at a place of a line: with blanks, or the line's ends, around it. */
static bool stands_alone(const char *line, const char *at, const char *word)
{
	const size_t length = strlen(word);
	return strncmp(at, word, length) == 0 && strchr(BLANKS "#", at[length]) != NULL &&
	       (at == line || strchr(BLANKS, at[-1]) != NULL);
}

/* The comment cut off, and what stands after the first `was`, cut off too; NULL where there is none. In
   quotes neither counts. */
static char *cut_rest(char *rest)
{
	char *was = NULL;
	bool quoted = false;
	for (char *at = rest; *at != 0; at++) {
		if (*at == '"') {
			quoted = !quoted;
		} else if (!quoted && *at == '#') {
			*at = 0;
			break;
		} else if (!quoted && was == NULL && stands_alone(rest, at, "was")) {
			*at = 0;
			was = at + 3;
		}
	}
	return was;
}

/* The line's pieces; what is longer than any name is cut, and is none. */
static struct pieces cut_line(char *line)
{
	struct pieces pieces = { .head = "" };
	line += strspn(line, BLANKS);
	const size_t length = strcspn(line, BLANKS "#=");
	strncat(pieces.head, line, length < MOST_NAME ? length : MOST_NAME);
	line += length;
	line += strspn(line, BLANKS);
	pieces.equals = *line == '=';
	char *rest = pieces.equals ? line + 1 : line;
	pieces.was = cut_rest(rest);
	pieces.value = trim_blanks(rest);
	return pieces;
}

/* ---- the name ---- */

/* A name that the file of names hasn't: the nearest ones. */
static bool refuse_name(const struct text *text, const struct names *names, const char *word,
			enum names_sought sought)
{
	begin_fault(text);
	say_word("name", word);
	say_nearest(names, word, sought);
	return false;
}

/* The setting that a line names; false after a message. */
static bool find_label(const struct text *text, const struct names *names, const struct pieces *pieces,
		       struct written *written)
{
	const enum names_sought sought = names_called(names, pieces->head, &written->label);
	if (sought != NAME_FOUND)
		return refuse_name(text, names, pieces->head, sought);
	written->offset = written->label->offset;
	if (written->label->length > MOST_VALUE) {
		fail_word(text, "name", pieces->head, "has more than 65535 bytes");
		return false;
	}
	if (!pieces->equals)
		fail_word(text, "name", pieces->head, "has no = after it: write NAME = VALUE");
	return pieces->equals;
}

/* ---- the whole ---- */

/* Where the entry goes: an offset, or a name where there are names; false after a message. */
static bool take_head(const struct text *text, const struct names *names, const struct pieces *pieces,
		      struct written *written)
{
	const struct field field = {
		"offset", 32, names != NULL ? "; or a name and =, or identity, revision or extended, and its value"
			      : "; or identity, revision or extended, and its value; a name needs --names FILE"
	};
	if (names != NULL && strchr("0123456789", pieces->head[0]) == NULL)
		return find_label(text, names, pieces, written);
	return take_field(text, &field, pieces->head, &written->offset);
}

/* What the line says is replaced, as many bytes as the entry has; false after a message. */
static bool take_was(const struct text *text, char *was, struct written *written)
{
	const struct wanted wanted = { .label = written->label, .length = written->length, .number = true };
	size_t length = 0;
	char *value = trim_blanks(was);
	if (*value == 0) {
		fail_line(text, "a value is missing after was");
		return false;
	}
	return take_value(text, &wanted, value, written->old, &length);
}

/* An entry's line; false after a message. An offset without a value is an entry without bytes. */
bool take_written(const struct text *text, const struct names *names, char *line,
		  struct written *written)
{
	struct pieces pieces = cut_line(line);
	written->label = NULL;
	written->was = pieces.was != NULL;
	if (!take_head(text, names, &pieces, written))
		return false;
	const struct wanted wanted = { .label = written->label, .number = pieces.equals,
				       .length = written->label == NULL ? 0 : written->label->length };
	if (pieces.equals && *pieces.value == 0) {
		fail_line(text, "a value is missing after =");
		return false;
	}
	return take_value(text, &wanted, pieces.value, written->bytes, &written->length) &&
	       (!written->was || take_was(text, pieces.was, written));
}
