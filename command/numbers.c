/*
 * Numbers as people write them: 0x and hex digits, or plain decimal. What could be read in two ways
 * is refused with a sentence that says how to write it, so that no base is taken for another.
 */
#include "numbers.h"

#include <inttypes.h>
#include <stdio.h>
#include <string.h>

#include "messages.h"

#define DECIMAL "0123456789"
#define HEX DECIMAL "abcdefABCDEF"

/* Every character of a text is one of these, and there is one. */
static bool all_of(const char *text, const char *these)
{
	return *text != 0 && text[strspn(text, these)] == 0;
}

/* 0x and hex digits. */
static bool is_hex(const char *text)
{
	return text[0] == '0' && text[1] == 'x' && all_of(text + 2, HEX);
}

/* Decimal digits; 0 first only where it is the whole number. */
static bool is_plain(const char *text)
{
	return all_of(text, DECIMAL) && (text[0] != '0' || text[1] == 0);
}

/* The value of a hex digit. */
static unsigned digit_of(char c)
{
	static const char digits[] = "0123456789abcdef0123456789ABCDEF";
	return (unsigned)(strchr(digits, c) - digits) % 16;
}

/* Hex digits alone, and one at least. */
bool all_hex(const char *text)
{
	return all_of(text, HEX);
}

/* The byte that two hex digits make. */
uint8_t byte_of(const char *digits)
{
	return (uint8_t)(16 * digit_of(digits[0]) + digit_of(digits[1]));
}

/* The digits' value; false where it does not fit 64 bits. */
static bool evaluate(const char *digits, unsigned radix, uint64_t *value)
{
	*value = 0;
	for (; *digits != 0; digits++) {
		const unsigned digit = digit_of(*digits);
		if (*value > (UINT64_MAX - digit) / radix)
			return false;
		*value = *value * radix + digit;
	}
	return true;
}

/* A number of 64 bits. */
enum number read_number(const char *text, uint64_t *value)
{
	const bool hex = is_hex(text);
	if (!hex && !is_plain(text))
		return NO_NUMBER;
	return evaluate(hex ? text + 2 : text, hex ? 16 : 10, value) ? NUMBER : TOO_LARGE;
}

/* How a text that is no number here would be written: two ways, one way, or in general; the other
   words that may stand in its place come last. */
void say_how(const char *text, const char *other)
{
	const bool capital = text[0] == '0' && text[1] == 'X' && all_of(text + 2, HEX);
	const char *decimal = text + strspn(text, "0");

	if (all_of(text, DECIMAL))
		fprintf(stderr, "starts with 0: write 0x%s for hex or %s for decimal", text,
			*decimal == 0 ? "0" : decimal);
	else if (all_of(text, HEX))
		fprintf(stderr, "has no 0x: write 0x%s for hex", text);
	else if (capital)
		fprintf(stderr, "has a capital X: write 0x%s for hex", text + 2);
	else
		fprintf(stderr, "is not a number: write hex as 0x00512000, decimal without a "
			"leading 0%s", other);
}

/* A word of the command line that is no such number, up to how to write one. */
static void refuse_word(const char *command, const char *name, const char *text, enum number number)
{
	fprintf(stderr, "pajurenda: %s: %s \"", command, name);
	say_name(text);
	fputs("\" ", stderr);
	if (number == TOO_LARGE)
		fputs("does not fit 64 bits", stderr);
}

/* A number of 64 bits from a word of the command line; false after a message. */
bool take_number(const char *command, const char *name, const char *text, uint64_t *value)
{
	const enum number number = read_number(text, value);
	if (number == NUMBER)
		return true;
	refuse_word(command, name, text, number);
	if (number == NO_NUMBER)
		say_how(text, "");
	fputc('\n', stderr);
	return false;
}

/* A base in hex, as every base is shown; decimal could be meant as hex. */
enum number read_base(const char *text, uint64_t *value)
{
	return is_hex(text) ? read_number(text, value) : NO_NUMBER;
}

/* How a base that isn't one would be written: digits alone in both ways that they can be meant. */
void say_base(const char *text, const char *other)
{
	uint64_t value = 0;
	if (all_of(text, HEX)) {
		fprintf(stderr, "has no 0x, and a base is hex: write 0x%s", text);
		if (all_of(text, DECIMAL) && evaluate(text, 10, &value))
			fprintf(stderr, ", or 0x%" PRIX64 " where %s is decimal", value, text);
	} else if (text[0] == '0' && text[1] == 'X' && all_of(text + 2, HEX)) {
		say_how(text, other);
	} else {
		fprintf(stderr, "is not hex: write it as 0x00512000%s", other);
	}
}

/* A base, or `keep`; false after a message. */
bool take_base(const char *command, const char *text, struct base *base)
{
	base->keep = strcmp(text, "keep") == 0;
	const enum number number = base->keep ? NUMBER : read_base(text, &base->value);
	if (number == NUMBER)
		return true;
	refuse_word(command, "BASE", text, number);
	if (number == NO_NUMBER)
		say_base(text, ", or keep for the image's own base");
	fputc('\n', stderr);
	return false;
}
