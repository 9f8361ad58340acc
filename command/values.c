/*
 * Values in a text. Bytes stand apart, two digits each, as they stand in the image; a number has 0x,
 * and its width in bytes where nothing else says it, and goes low byte first; a choice has the maker's
 * words. What could be bytes as well as a number is refused with both ways to write it.
 */
#include "values.h"

#include <inttypes.h>
#include <stdio.h>
#include <stdlib.h>
#include <string.h>

#include "messages.h"
#include "numbers.h"
#include "show.h"

#define BLANKS " \t"

/* How many bytes of a run of digits are shown apart, the widest number, and how many choices are told. */
#define MOST_APART ((size_t)8)
#define MOST_WIDTH ((uint64_t)8)
#define MOST_TOLD ((size_t)5)

/* A text without the blanks around it. */
char *trim_blanks(char *text)
{
	char *end = text + strlen(text);
	text += strspn(text, BLANKS);
	while (end > text && strchr(BLANKS, end[-1]) != NULL)
		*--end = 0;
	return text;
}

/* ---- what is wrong ---- */

/* A run of digits that could be either: both ways to write it, the number where it can be one. */
static bool refuse_run(const struct text *text, const char *word)
{
	const size_t digits = strlen(word);
	begin_fault(text);
	say_word("", word);
	fputs("could be bytes or a number: write ", stderr);
	for (size_t i = 0; digits % 2 == 0 && i < digits / 2 && i < MOST_APART; i++)
		fprintf(stderr, "%.2s ", word + 2 * i);
	if (digits % 2 == 0)
		fprintf(stderr, "%sfor bytes", digits > 2 * MOST_APART ? ".. " : "");
	if (digits <= 2 * MOST_APART)
		fprintf(stderr, "%s= 0x%s : %zu for a number", digits % 2 == 0 ? ", or " : "", word,
			(digits + 1) / 2);
	fputs(digits % 2 == 0 ? "\n" : "; a byte has two digits\n", stderr);
	return false;
}

/* What is no value at all. */
static bool refuse_value(const struct text *text, const char *word)
{
	fail_word(text, "", word, "is no value: write bytes apart, as FF EE, or a number with its width, as "
		  "= 0x0000EEFF : 4");
	return false;
}

/* Words that are no choice of the setting: those that it has. */
static bool refuse_choice(const struct text *text, const struct label *label, const char *words,
			  bool several)
{
	begin_fault(text);
	say_word("", words);
	fprintf(stderr, "is %s of %s", several ? "more than one choice" : "no choice", label->name);
	for (size_t i = 0; i < label->choices && i < MOST_TOLD; i++) {
		fprintf(stderr, "%s \"", i == 0 ? ", which has" : ",");
		say_name(label->choice[i].words);
		fprintf(stderr, "\" 0x%02" PRIX64, label->choice[i].value);
	}
	if (label->choices > MOST_TOLD)
		fprintf(stderr, " and %zu more", label->choices - MOST_TOLD);
	fputs(label->choices == 0 ? ", which has none: write bytes or a number\n" : "\n", stderr);
	return false;
}

/* The value is of another length than it must be. */
static bool refuse_length(const struct text *text, const struct wanted *wanted, size_t length)
{
	begin_fault(text);
	fprintf(stderr, "%s has %zu byte%s, not %zu\n",
		wanted->label == NULL ? "what is replaced" : wanted->label->name, wanted->length,
		wanted->length == 1 ? "" : "s", length);
	return false;
}

/* ---- the three kinds ---- */

/* A number's width, after its colon or by what is wanted; 0 after a message. */
static size_t take_width(const struct text *text, const struct wanted *wanted, char *number, char *colon)
{
	uint64_t width = wanted->length;
	if (colon == NULL && width == 0) {
		fail_word(text, "", number, "has no width: write it with its width in bytes, as = 0x0000EEFF : 4");
		return 0;
	}
	if (colon != NULL && (read_number(trim_blanks(colon + 1), &width) != NUMBER || width == 0)) {
		fail_word(text, "width", trim_blanks(colon + 1), "is not 1 to 8");
		return 0;
	}
	if (width <= MOST_WIDTH)
		return (size_t)width;
	fail_word(text, "", number, "is a number, and numbers have 1 to 8 bytes: write the bytes apart");
	return 0;
}

/* A number with its width, low byte first; false after a message. */
static bool take_wide(const struct text *text, const struct wanted *wanted, char *written,
		      uint8_t *bytes, size_t *length)
{
	char *colon = strchr(written, ':');
	uint64_t value = 0;
	if (colon != NULL)
		*colon = 0;
	char *number = trim_blanks(written);
	if (!wanted->number || read_number(number, &value) == NO_NUMBER)
		return refuse_value(text, number);
	const size_t width = take_width(text, wanted, number, colon);
	if (width == 0)
		return false;
	if (read_number(number, &value) == TOO_LARGE || (width < 8 && value >> (8 * width) != 0)) {
		begin_fault(text);
		say_word("", number);
		fprintf(stderr, "does not fit %zu byte%s\n", width, width == 1 ? "" : "s");
		return false;
	}
	for (size_t i = 0; i < width; i++)
		bytes[i] = (uint8_t)(value >> (8 * i));
	*length = width;
	return true;
}

/* A word in the place of a byte that is none; false after a message. */
static bool refuse_byte_word(const struct text *text, const struct wanted *wanted, const char *word)
{
	if (all_hex(word))
		return refuse_run(text, word);
	if (strncmp(word, "0x", 2) == 0 && !wanted->number) {
		fail_word(text, "", word, "is a number: write = before it and its width after it, as "
			  "= 0x0000EEFF : 4, or bytes without 0x");
		return false;
	}
	return refuse_value(text, word);
}

/* Bytes apart, two digits each; false after a message. */
static bool take_bytes(const struct text *text, const struct wanted *wanted, char *written,
		       uint8_t *bytes, size_t *length)
{
	char *word;
	*length = 0;
	while ((word = next_word(&written)) != NULL) {
		if (strlen(word) != 2 || !all_hex(word))
			return refuse_byte_word(text, wanted, word);
		if (*length == MOST_VALUE) {
			fail_line(text, "more than 65535 bytes");
			return false;
		}
		bytes[(*length)++] = byte_of(word);
	}
	return true;
}

/* The words of a choice, as a string of their own; false after a message. */
static bool take_words(const struct text *text, const struct wanted *wanted, const char *words,
		       uint8_t *bytes, size_t *length)
{
	const enum names_sought sought = names_value(wanted->label, words, bytes);
	*length = wanted->label->length;
	return sought == NAME_FOUND ||
	       refuse_choice(text, wanted->label, words, sought == NAME_SEVERAL);
}

/* Words in quotes, which end the value; false after a message. */
static bool take_quoted(const struct text *text, const struct wanted *wanted, char *written,
			uint8_t *bytes, size_t *length)
{
	char *end = strrchr(written + 1, '"');
	if (wanted->label == NULL)
		return refuse_value(text, written);
	if (end == NULL || end[1] != 0) {
		fail_word(text, "", written, "has no quote at its end");
		return false;
	}
	*end = 0;
	return take_words(text, wanted, written + 1, bytes, length);
}

/* ---- whichever it is ---- */

/* The words of a choice without quotes: nothing that could be bytes or a number. */
static bool is_words(const struct wanted *wanted, const char *written)
{
	const size_t first = strcspn(written, BLANKS);
	if (wanted->label == NULL || strncmp(written, "0x", 2) == 0)
		return false;
	for (size_t i = 0; i < first; i++)
		if (strchr("0123456789abcdefABCDEF", written[i]) == NULL)
			return true;
	return false;
}

/* A value without blanks around it; false after a message. */
bool take_value(const struct text *text, const struct wanted *wanted, char *written, uint8_t *bytes,
		size_t *length)
{
	const bool number = strncmp(written, "0x", 2) == 0 && wanted->number;
	bool taken;
	if (*written == '"')
		taken = take_quoted(text, wanted, written, bytes, length);
	else if (is_words(wanted, written))
		taken = take_words(text, wanted, written, bytes, length);
	else if (number)
		taken = take_wide(text, wanted, written, bytes, length);
	else
		taken = take_bytes(text, wanted, written, bytes, length);
	if (taken && wanted->length != 0 && *length != wanted->length)
		return refuse_length(text, wanted, *length);
	return taken;
}
