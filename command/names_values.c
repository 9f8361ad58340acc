/* Words, numbers and defaults as makers' files write them. */
#include <string.h>

#include "names_parts.h"

/* ---- stretches ---- */

/* The stretch is that word. */
bool span_is(struct span span, const char *word)
{
	return span.length == strlen(word) && memcmp(span.at, word, span.length) == 0;
}

/* Blanks, tabs and line ends. */
static bool is_blank(char c)
{
	return c == ' ' || c == '\t' || c == '\r' || c == '\n';
}

/* Without the blanks around it. */
struct span trim(struct span span)
{
	while (span.length > 0 && is_blank(span.at[0])) {
		span.at++;
		span.length--;
	}
	while (span.length > 0 && is_blank(span.at[span.length - 1]))
		span.length--;
	return span;
}

/* The stretch begins and ends with these. */
static bool is_between(struct span span, char first, char last)
{
	return span.length >= 2 && span.at[0] == first && span.at[span.length - 1] == last;
}

/* It is in quotes of either kind. */
static bool is_quoted(struct span span)
{
	return is_between(span, '"', '"') || is_between(span, '\'', '\'');
}

/* Without its first and last sign. */
static struct span inner(struct span span)
{
	return (struct span){ span.at + 1, span.length - 2 };
}

/* Without the quotes around it, where it has them. */
struct span unquote(struct span span)
{
	span = trim(span);
	return is_quoted(span) ? inner(span) : span;
}

/* What stands before the next mark, all of it where there is none; the rest is what follows. */
struct span cut_at(struct span *rest, const char *mark)
{
	const size_t length = strlen(mark);
	size_t i = 0;
	while (i + length <= rest->length && memcmp(rest->at + i, mark, length) != 0)
		i++;
	const bool found = i + length <= rest->length;
	const struct span part = { rest->at, found ? i : rest->length };
	const size_t passed = found ? i + length : rest->length;
	*rest = (struct span){ rest->at + passed, rest->length - passed };
	return trim(part);
}

/* The start of it, with nothing that is not seen. */
struct shown show_span(struct span span)
{
	struct shown shown = { "" };
	const size_t most = sizeof shown.text - 3;
	size_t i = 0;
	for (; i < span.length && i < most; i++)
		shown.text[i] = span.at[i] > 32 && span.at[i] < 127 ? span.at[i] : '?';
	if (i < span.length)
		memcpy(shown.text + i, "..", 3);
	return shown;
}

/* ---- numbers ---- */

/* The value of a digit, 16 for any other sign. */
static unsigned digit(char c)
{
	if (c >= '0' && c <= '9')
		return (unsigned)(c - '0');
	const char low = (char)(c | 32);
	return low >= 'a' && low <= 'f' ? (unsigned)(low - 'a') + 10 : 16;
}

/* 0x and at least one sign more. */
static bool is_hex(struct span span)
{
	return span.length > 2 && span.at[0] == '0' && (span.at[1] | 32) == 'x';
}

/*
 * A number of 64 bits, in hex after 0x, else decimal. Digits that start with a 0 are a number only
 * where all are 0: nobody can say whether others are octal.
 */
bool span_number(struct span digits, uint64_t *value)
{
	const bool hex = is_hex(digits);
	const unsigned radix = hex ? 16 : 10;
	*value = 0;
	for (size_t i = hex ? 2 : 0; i < digits.length; i++) {
		const unsigned next = digit(digits.at[i]);
		if (next >= radix || *value > (UINT64_MAX - next) / radix)
			return false;
		*value = *value * radix + next;
	}
	return digits.length > 0 && (hex || digits.length == 1 || digits.at[0] != '0' || *value == 0);
}

/* ---- defaults ---- */

/* A default in the making: the setting's bytes, of which some are filled. */
struct filling {
	uint8_t *at;
	size_t filled, length;
};

/* A number of so many bytes after the others; false where it doesn't fit. */
static bool fill_number(struct filling *f, struct span digits, size_t width)
{
	uint64_t value = 0;
	if (!span_number(digits, &value) || width > f->length - f->filled ||
	    (width < 8 && value >> (8 * width) != 0))
		return false;
	for (size_t i = 0; i < width; i++)
		f->at[f->filled++] = (uint8_t)(i < 8 ? value >> (8 * i) : 0);
	return true;
}

/* A number in hex of any length, its last digits first; false where it doesn't fit. */
static bool fill_hex(struct filling *f, struct span digits)
{
	const size_t count = digits.length - 2;
	for (size_t i = 0; i < count; i++) {
		const unsigned next = digit(digits.at[digits.length - 1 - i]);
		if (next > 15 || (i / 2 >= f->length && next != 0))
			return false;
		if (i / 2 < f->length)
			f->at[i / 2] |= (uint8_t)(next << (4 * (i % 2)));
	}
	f->filled = f->length;
	return true;
}

/* The bytes of a text; false where they don't fit. */
static bool fill_text(struct filling *f, struct span text)
{
	if (text.length > f->length - f->filled)
		return false;
	memcpy(f->at + f->filled, text.at, text.length);
	f->filled += text.length;
	return true;
}

/* How many bytes a number of a list has: 0:0W and the like before the first say it. */
static size_t width_of(struct span element)
{
	static const char units[] = "BWDQ";
	const char *unit = element.length == 4 && memcmp(element.at, "0:0", 3) == 0
				   ? memchr(units, element.at[3], sizeof units - 1) : NULL;
	return unit == NULL ? 0 : (size_t)1 << (unit - units);
}

/* Numbers with commas between them, each a byte where nothing else is said. */
static bool fill_list(struct filling *f, struct span list)
{
	size_t width = 1;
	while (list.length > 0) {
		const struct span element = cut_at(&list, ",");
		const size_t said = width_of(element);
		if (said != 0)
			width = said;
		else if (is_quoted(element) ? !fill_text(f, inner(element))
					    : element.length != 0 && !fill_number(f, element, width))
			return false;
	}
	return f->filled > 0;
}

/* A default of any form: what it doesn't fill is 0, as edk2's tools have it. */
static bool fill(struct filling *f, struct span value)
{
	value = trim(value);
	if (is_quoted(value))
		return fill_text(f, inner(value));
	const bool braces = is_between(value, '{', '}');
	if (braces)
		value = trim(inner(value));
	if (value.length != 0 && (memchr(value.at, ',', value.length) != NULL || is_quoted(value)))
		return fill_list(f, value);
	return is_hex(value) ? fill_hex(f, value) : fill_number(f, value, f->length);
}

/* The default of a name, as its bytes; one that can't be said in its bytes is passed over. */
void give_value(struct reading *r, size_t index, struct span value, size_t line)
{
	struct label *label = &r->store.made[index].label;
	struct filling f = { .at = r->store.given + label->offset, .length = label->length };
	memset(f.at, 0, f.length);
	if (fill(&f, value))
		label->given = f.at;
	else
		pass_over(r, line);
}
