/*
 * The lines of a text that say which image it is for, as `read`, `sheet start` and `sheet show` write them.
 * Each is put into the draft, and the library is asked whether that is still the image's. A text
 * without them could be that of any revision, where the same offsets are other settings.
 */
#include <inttypes.h>
#include <stdio.h>
#include <string.h>

#include "making.h"
#include "messages.h"
#include "numbers.h"
#include "show.h"

static const struct part parts[] = {
	{ "identity", 0, 8 }, { "revision", 8, 4 }, { "extended", 14, 2 },
};

#define PARTS (sizeof parts / sizeof parts[0])

/* The part that a line's first word names; NULL where it is none. */
const struct part *find_part(const char *line)
{
	const char *word = line + strspn(line, " \t");
	const size_t length = strcspn(word, " \t#");
	for (size_t i = 0; i < PARTS; i++)
		if (strlen(parts[i].name) == length && strncmp(parts[i].name, word, length) == 0)
			return &parts[i];
	return NULL;
}

/* A part as it is written, by the first 16 bytes of a sheet. */
static void say_part(const struct part *part, const uint8_t *head)
{
	fprintf(saying(), "%s ", part->name);
	if (part->width == 8)
		show_identity(saying(), head + part->at);
	else
		fprintf(saying(), "0x%0*" PRIX64, (int)(2 * part->width),
			pajurenda_number(head + part->at, part->width));
}

/* 16 of a line: what it says, and what the image has. */
static enum status refuse_part(const struct making *m, const struct part *part)
{
	uint8_t own[PAJURENDA_EMPTY_SHEET];
	pajurenda_empty_sheet(m->reading, own);
	begin_line_refusal(PAJURENDA_IDENTITY, &m->text);
	say_part(part, m->draft->head);
	fputs(", ", saying());
	put_name(saying(), m->image.name);
	fputs(" has ", saying());
	say_part(part, own);
	return end_refusal();
}

/* Eight bytes in hex into the draft; false after a message. */
static bool put_identity(struct making *m, const char *word)
{
	if (strlen(word) != 16 || !all_hex(word)) {
		fail_word(&m->text, "identity", word, "is not eight bytes in hex, two digits each");
		return false;
	}
	for (size_t i = 0; i < 8; i++)
		m->draft->head[i] = byte_of(word + 2 * i);
	return true;
}

/* A number into the draft; false after a message. */
static bool put_part(struct making *m, const struct part *part, const char *word)
{
	const struct field field = { part->name, (unsigned)(8 * part->width), "" };
	uint64_t value = 0;
	if (!take_field(&m->text, &field, word, &value))
		return false;
	put_number(m->draft->head + part->at, part->width, value);
	return true;
}

/* After an identity the text in quotes that stands for the same bytes is passed. */
static char *pass_text(char *rest, const uint8_t *identity)
{
	char *quoted = rest + strspn(rest, " \t");
	if (quoted[0] != '"' || strlen(quoted) < 10 || quoted[9] != '"' ||
	    memcmp(quoted + 1, identity, 8) != 0)
		return rest;
	return quoted + 10;
}

/* A line that names a part: its value and no word more, and the library takes it. */
enum status take_part(struct making *m, const struct part *part, char *rest)
{
	const unsigned own = 1U << (part - parts);
	(void)next_word(&rest);
	if ((m->parts & own) != 0)
		return fail_word(&m->text, "", part->name, "is named twice");
	const char *word = next_word(&rest);
	if (word == NULL)
		return fail_line(&m->text, "a value is missing after the name");
	if (part->width == 8 ? !put_identity(m, word) : !put_part(m, part, word))
		return FAILED;
	if (part->width == 8)
		rest = pass_text(rest, m->draft->head);
	word = next_word(&rest);
	if (word != NULL)
		return fail_word(&m->text, "", word, "is one word too many");
	const uint32_t number = ask(m);
	m->parts |= own;
	if (number == PAJURENDA_IDENTITY)
		return refuse_part(m, part);
	return number == PAJURENDA_ACCEPTED ? FINE : fail_answer();
}

/* A text must have the part: the extended number only where the image has one. */
static bool is_missing(const struct making *m, size_t part, const uint8_t *own)
{
	return (m->parts >> part & 1) == 0 &&
	       (parts[part].width != 2 || pajurenda_number(own + parts[part].at, 2) != 0);
}

/* The text has every line that says which image it is for; FAILED after the lines that are missing. */
enum status want_parts(const struct making *m, const char *command)
{
	uint8_t own[PAJURENDA_EMPTY_SHEET];
	bool missing = false;
	pajurenda_empty_sheet(m->reading, own);
	for (size_t i = 0; i < PARTS; i++) {
		if (!is_missing(m, i, own))
			continue;
		if (!missing) {
			fputs("pajurenda: ", stderr);
			say_name(m->text.name);
			fputs(": it does not say which image it is for. If its offsets are those of ", stderr);
			say_name(m->image.name);
			fputs(" itself, write into it:\n", stderr);
		}
		missing = true;
		fputs("    ", stderr);
		say_part(&parts[i], own);
		fputc('\n', stderr);
	}
	if (missing)
		fprintf(stderr, "pajurenda: these lines keep a text of one revision from being used with another, "
			"where the same offsets are other settings (see pajurenda %s --help)\n", command);
	return missing ? FAILED : FINE;
}
