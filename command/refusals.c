/* Refusals in words: what all of them share, and those of bases and pairs. */
#define _XOPEN_SOURCE 700

#include "refusals.h"

#include <inttypes.h>
#include <stdio.h>
#include <stdlib.h>

#include "letters.h"
#include "messages.h"
#include "pajurenda.h"
#include "show.h"

/* Standard output has another form for a refusal: a document, or a line of a list. */
static bool kept;

/* From here on a refusal's number is, or isn't, kept from standard output. */
void keep_refusals(bool from_output)
{
	kept = from_output;
}

/* A file's length; no more is read of it than shows that it is too long. */
void say_length(const struct bytes *file)
{
	if (file->length > PAJURENDA_MOST_IMAGE)
		fprintf(saying(), "more than %d bytes", PAJURENDA_MOST_IMAGE);
	else
		fprintf(saying(), "%zu bytes", file->length);
}

/* Bytes as text where they are printable, else in hex; they may lie past the file's end. */
void say_bytes(const struct bytes *file, uint64_t at, size_t count)
{
	if (!has_bytes(file, at, count))
		fputs("past the file's end", saying());
	else if (is_printable(file->at + at, count))
		show_text(saying(), file->at + at, count);
	else
		show_hex(saying(), file->at + at, count);
}

/* ---- a line ---- */

/* The line that is being made; and the last one that was, from where its values begin. */
static FILE *line;
static char *text;
static size_t length, values;

/* The last refusal, and the patch entry that it is of; 0 where there was none. */
static uint32_t last_number;
static uint64_t last_index;

uint32_t refusal_number(void)
{
	return last_number;
}

uint64_t refusal_index(void)
{
	return last_index;
}

/* A refusal is of this patch entry. */
void note_index(uint64_t index)
{
	last_index = index;
}

/* Where a refusal's words go: into its line, or without memory for that to standard error at once. */
FILE *saying(void)
{
	return line == NULL ? stderr : line;
}

/* What has been said so far is no value yet. */
static void note_values(void)
{
	values = line != NULL && fflush(line) == 0 ? length : 0;
}

/* A line begins: the file. */
void begin_line(const char *name)
{
	free(text);
	text = NULL;
	line = open_memstream(&text, &length);
	put_name(saying(), name);
}

/* The file, number and name in a line, where standard output tells the refusal otherwise. */
void begin_told_refusal(uint32_t number, const char *name)
{
	last_number = number;
	begin_line(name);
	fprintf(saying(), ": refused %" PRIu32 " %s: ", number, pajurenda_name(number));
	note_values();
}

/* The number alone on standard output, unless it is kept from there. */
void print_refused(uint32_t number)
{
	last_number = number;
	if (!kept)
		printf("refused %" PRIu32 "\n", number);
}

/* The same, and the line. */
void begin_refusal(uint32_t number, const char *name)
{
	print_refused(number);
	begin_told_refusal(number, name);
}

/* The rule, before its values. */
void say_rule(uint32_t number)
{
	fprintf(saying(), "%s: ", pajurenda_sentence(number));
	note_values();
}

/* The line's end: it goes to standard error, and is kept. */
enum status end_refusal(void)
{
	if (line != NULL && fclose(line) != 0) {
		free(text);
		text = NULL;
	}
	line = NULL;
	fprintf(stderr, "%s\n", text == NULL ? "" : text);
	return FAILED;
}

/* The values of the last refusal, as they were told; NULL where there are none. */
const char *refusal_values(void)
{
	return text == NULL || values >= length ? NULL : text + values;
}

/* 18, where whose base it is goes before the rule, up to the line's end. */
static void begin_base(const struct named *file, const char *whose, uint64_t base)
{
	begin_refusal(PAJURENDA_NEWBASE, file->name);
	fprintf(saying(), "%s base must be a multiple of 4096, base plus length at most 2^32: ",
		whose);
	note_values();
	fprintf(saying(), "0x%08" PRIX64 " for %zu bytes", base, file->bytes.length);
}

/* The same to its end. */
static enum status refuse_base(const struct named *file, const char *whose, uint64_t base)
{
	begin_base(file, whose, base);
	return end_refusal();
}

/* 18 of a move: the base that was asked for. */
enum status refuse_new_base(const struct named *image, uint64_t base)
{
	return refuse_base(image, "the new", base);
}

/* 18 of an export: the base that was asked for. */
enum status refuse_text_base(const struct named *image, uint64_t base)
{
	return refuse_base(image, "the text's", base);
}

/* 18 of an audit, up to the line's end: the base that the shipped file says, at the vendor's place of it. */
void begin_shipped_base(const struct named *shipped, uint64_t position)
{
	begin_base(shipped, "the shipped file's", number_at(&shipped->bytes, position, 4));
}

/* 19: the two lengths. */
enum status refuse_pair(const struct named *vendor, const struct named *shipped)
{
	begin_refusal(PAJURENDA_PAIR, shipped->name);
	say_rule(PAJURENDA_PAIR);
	fputs("the file has ", saying());
	say_length(&shipped->bytes);
	fputs(", ", saying());
	put_name(saying(), vendor->name);
	fprintf(saying(), " has %zu", vendor->bytes.length);
	return end_refusal();
}
