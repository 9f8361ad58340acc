/*
 * Names of files and the like are any bytes. Here they are taken as UTF-8, sign by sign; bytes that
 * are none become the sign for that. What a reader would not see, or what turns the order of the
 * signs around it, is shown by its number: no name may look like another.
 */
#include "signs.h"

#include <string.h>

/* How many bytes a sign has by its first, and the bits of it that are the sign's; 0 for no sign. */
static size_t length_by(unsigned char first, uint32_t *bits)
{
	const size_t length = first < 0x80 ? 1 : first < 0xE0 ? 2 : first < 0xF0 ? 3 : 4;
	*bits = length == 1 ? first : first & (0x7FU >> length);
	return (first >= 0x80 && first < 0xC2) || first > 0xF4 ? 0 : length;
}

/* A number that UTF-8 writes with so many bytes and no fewer, and that is a sign's. */
static bool is_sign(uint32_t number, size_t length)
{
	static const uint32_t least[] = { 0, 0, 0x80, 0x800, 0x10000 };
	return number >= least[length] && number <= 0x10FFFF && (number < 0xD800 || number > 0xDFFF);
}

/* The next sign of a text that isn't at its end, and how many bytes it has. */
size_t take_sign(const char *text, uint32_t *sign)
{
	const size_t length = length_by((unsigned char)text[0], sign);
	size_t k = 1;
	for (; k < length && ((unsigned char)text[k] & 0xC0) == 0x80; k++)
		*sign = *sign << 6 | ((unsigned char)text[k] & 0x3F);
	if (length != 0 && k == length && is_sign(*sign, length))
		return length;
	*sign = NO_SIGN;
	return 1;
}

/* Signs that show nothing by themselves: controls, marks of direction, joiners, spaces of no width. */
bool is_hidden(uint32_t sign)
{
	static const uint32_t hidden[][2] = {
		{ 0x00, 0x1F }, { 0x7F, 0x9F }, { 0xAD, 0xAD }, { 0x34F, 0x34F }, { 0x61C, 0x61C },
		{ 0x115F, 0x1160 }, { 0x17B4, 0x17B5 }, { 0x180B, 0x180F }, { 0x200B, 0x200F },
		{ 0x2028, 0x202E }, { 0x2060, 0x206F }, { 0x3164, 0x3164 }, { 0xFE00, 0xFE0F },
		{ 0xFEFF, 0xFEFF }, { 0xFFA0, 0xFFA0 }, { 0xFFF0, 0xFFFB }, { 0x1D173, 0x1D17A },
		{ 0xE0000, 0xE0FFF },
	};
	size_t i = 0;
	while (i < sizeof hidden / sizeof hidden[0] && sign > hidden[i][1])
		i++;
	return i < sizeof hidden / sizeof hidden[0] && sign >= hidden[i][0];
}

/* One sign in a page: as a number wherever it could be more than itself. */
static void put_page_sign(FILE *to, uint32_t sign)
{
	if (is_hidden(sign))
		fprintf(to, "<span class=\"sign\">U+%04X</span>", (unsigned)sign);
	else if (sign > 0x7E || strchr("<>&\"'`=", (int)sign) != NULL)
		fprintf(to, "&#%u;", (unsigned)sign);
	else
		fputc((int)sign, to);
}

/* A text from outside in a page's title, where there are no tags: what shows nothing is a question mark. */
void put_title_text(FILE *to, const char *text)
{
	uint32_t sign = 0;
	while (*text != 0) {
		text += take_sign(text, &sign);
		put_page_sign(to, is_hidden(sign) ? '?' : sign);
	}
}

/* A text from outside as a string in a style, in quotes: every sign by its number. */
void put_style_text(FILE *to, const char *text)
{
	uint32_t sign = 0;
	fputc('"', to);
	while (*text != 0) {
		text += take_sign(text, &sign);
		fprintf(to, "\\%06X", (unsigned)(is_hidden(sign) ? '?' : sign));
	}
	fputc('"', to);
}

/* A text from outside in a page's text; never inside a tag. */
void put_page_text(FILE *to, const char *text)
{
	uint32_t sign = 0;
	while (*text != 0) {
		text += take_sign(text, &sign);
		put_page_sign(to, sign);
	}
}

/* One sign of a string in JSON: as a number where it isn't plain, above 16 bits as two. */
static void put_json_sign(FILE *to, uint32_t sign)
{
	if (sign == '"' || sign == '\\')
		fprintf(to, "\\%c", (int)sign);
	else if (sign >= 0x20 && sign < 0x7F)
		fputc((int)sign, to);
	else if (sign < 0x10000)
		fprintf(to, "\\u%04X", (unsigned)sign);
	else
		fprintf(to, "\\u%04X\\u%04X", (unsigned)(0xD7C0 + (sign >> 10)),
			(unsigned)(0xDC00 + (sign & 0x3FF)));
}

/* A text from outside as a string in JSON, in quotes. */
void put_json_text(FILE *to, const char *text)
{
	uint32_t sign = 0;
	fputc('"', to);
	while (*text != 0) {
		text += take_sign(text, &sign);
		put_json_sign(to, sign);
	}
	fputc('"', to);
}
