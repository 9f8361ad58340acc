/*
 * Names in a text of our own:
 *
 *	identity 2451454D46535024 "$QEMFSP$"
 *	revision 0x00001010
 *	find 51454D5550445F4D "QEMUPD_M"
 *	0x128 1 BypassRelay "Bypass relay at restart"
 *		default 01
 *		choice 00 "Disabled"
 *		choice 01 "Enabled"
 *
 * The lines on top say which image it is for; find begins the names of one region, as in a maker's
 * file, since the components of one revision share their identity. Values are bytes, two digits each,
 * or a number after 0x. It is written by hand, so a line that isn't understood refuses it.
 */
#include <inttypes.h>
#include <string.h>

#include "names_parts.h"

/* The text, the line at hand, the name that it may add to; which lines on top there were. */
struct own {
	struct reading *r;
	struct span rest;
	size_t line, label;
	uint32_t length; /* of the name, also where it is another region's */
	bool named, identity, revision, extended;
};

/* ---- words ---- */

static void fault(struct own *o, const char *what)
{
	refuse(o->r, NAMES_BROKEN, o->line, "%s", what);
}

/* The next word of the line, or its next text with its quotes; empty before a comment and at the end. */
static struct span take_word(struct own *o)
{
	const struct span rest = trim(o->rest);
	size_t i = 0;
	if (rest.length > 0 && rest.at[0] == '"') {
		for (i = 1; i < rest.length && rest.at[i] != '"'; i++)
			;
		if (i == rest.length)
			fault(o, "a text in quotes has no end");
		else
			i++;
	} else
		while (i < rest.length && strchr(" \t#\"", rest.at[i]) == NULL)
			i++;
	o->rest = (struct span){ rest.at + i, rest.length - i };
	return (struct span){ rest.at, i };
}

/* Nothing more on the line. */
static void end_line(struct own *o)
{
	const struct span word = take_word(o);
	if (word.length != 0)
		refuse(o->r, NAMES_BROKEN, o->line, "%s is one word too many", show_span(word).text);
}

static bool is_text(struct span word)
{
	return word.length >= 2 && word.at[0] == '"';
}

/* Two digits in hex. */
static bool is_byte(struct span word, uint8_t *byte)
{
	uint64_t value = 0;
	char digits[4] = "0x";
	if (word.length != 2)
		return false;
	memcpy(digits + 2, word.at, 2);
	const bool right = span_number((struct span){ digits, 4 }, &value);
	*byte = (uint8_t)value;
	return right;
}

/* Eight bytes in 16 digits; false after a refusal. */
static bool take_eight(struct own *o, struct span word, uint8_t *eight)
{
	bool right = word.length == 16;
	for (size_t i = 0; right && i < 8; i++)
		right = is_byte((struct span){ word.at + 2 * i, 2 }, &eight[i]);
	if (!right)
		fault(o, "eight bytes in hex are wanted here, two digits each");
	return right;
}

/* After eight bytes the text in quotes that stands for the same ones is passed. */
static void pass_same(struct own *o, const uint8_t *eight)
{
	const struct span text = unquote(take_word(o));
	if (text.length != 0 && (text.length != 8 || memcmp(text.at, eight, 8) != 0))
		refuse(o->r, NAMES_BROKEN, o->line, "%s is not the text of the bytes before it",
		       show_span(text).text);
}

/* ---- which image it is for ---- */

/* Eight bytes as a line has them. */
struct hex {
	char text[17];
};

static struct hex hex_of(const uint8_t *eight)
{
	struct hex hex;
	for (size_t i = 0; i < 8; i++)
		snprintf(hex.text + 2 * i, 3, "%02X", (unsigned)eight[i]);
	return hex;
}

/* identity 2451454D46535024 "$QEMFSP$" */
static void take_identity(struct own *o)
{
	uint8_t eight[8] = { 0 };
	if (!take_eight(o, take_word(o), eight))
		return;
	if (memcmp(eight, o->r->image->identity, 8) != 0)
		refuse(o->r, NAMES_OTHER, o->line, "these names are for identity %s, the image has %s",
		       hex_of(eight).text, hex_of(o->r->image->identity).text);
	o->identity = true;
	pass_same(o, eight);
	end_line(o);
}

/* revision 0x00001010, or extended 0x0102 */
static void take_part(struct own *o, const char *name, uint64_t wanted, bool *there)
{
	uint64_t value = 0;
	const struct span word = take_word(o);
	if (!span_number(word, &value))
		refuse(o->r, NAMES_BROKEN, o->line, "%s is not a number", show_span(word).text);
	if (value != wanted)
		refuse(o->r, NAMES_OTHER, o->line, "these names are for %s 0x%" PRIX64
		       ", the image has 0x%" PRIX64, name, value, wanted);
	*there = true;
	end_line(o);
}

/* find 51454D5550445F4D "QEMUPD_M", or the text alone, with quotes or without */
static void take_find(struct own *o)
{
	uint8_t eight[8];
	const struct span word = take_word(o);
	struct span mark = unquote(word);
	if (mark.length != 8) {
		if (!take_eight(o, word, eight))
			return;
		mark = (struct span){ (const char *)eight, 8 };
		pass_same(o, eight);
	}
	begin_block(o->r, mark, o->line);
	o->named = false;
	end_line(o);
}

/* ---- names ---- */

/* 0x128 1 BypassRelay "Bypass relay at restart" */
static void take_name(struct own *o, struct span first)
{
	struct reading *r = o->r;
	uint64_t offset = 0, length = 0;
	if (!span_number(first, &offset) || !span_number(take_word(o), &length) || length == 0) {
		fault(o, "a line is offset, length and name; or identity, revision, extended, find, "
		      "default or choice, and its value");
		return;
	}
	const struct span name = take_word(o), title = take_word(o);
	r->place = 0;
	go_on(r, offset, 8);
	const size_t before = r->passed;
	o->label = add_label(r, name, length, 8, o->line);
	o->length = length > UINT32_MAX ? UINT32_MAX : (uint32_t)length;
	o->named = true;
	if (r->passed != before)
		fault(o, "a name is wanted after offset and length: letters, digits, _ . [ ]");
	if (r->block == NO_BLOCK)
		refuse(r, NAMES_NO_MARK, o->line, "no find line stands before the first name: write find %s "
		       "if they are this region's", hex_of(r->image->mark).text);
	if (title.length != 0 && !is_text(title))
		fault(o, "the display name stands in quotes");
	if (o->label != NO_LABEL && title.length != 0)
		r->store.made[o->label].label.title = keep_text(r, unquote(title));
	end_line(o);
}

/* A number after 0x as the setting's bytes, or these one by one; the word after them. */
static struct span take_value(struct own *o, uint8_t *bytes)
{
	uint64_t number = 0;
	uint32_t count = 0;
	const struct label label = { .length = o->length };
	struct span word = take_word(o);
	if (word.length > 2 && word.at[1] == 'x' && span_number(word, &number)) {
		if (!names_number(&label, number, bytes))
			fault(o, "the number does not fit the setting's length");
		return take_word(o);
	}
	uint8_t byte = 0;
	for (; is_byte(word, &byte) && count < o->length; word = take_word(o))
		bytes[count++] = byte;
	if (count != o->length)
		fault(o, "a value is the setting's bytes, two digits each, or a number after 0x");
	return word;
}

/* default 01, or choice 01 "Enabled"; the bytes are those of the longest region. */
static void take_of_name(struct own *o, bool choice)
{
	struct reading *r = o->r;
	static uint8_t bytes[65536];
	if (!o->named || o->length > sizeof bytes) {
		fault(o, "default and choice stand after the name that they are of");
		return;
	}
	const struct span words = take_value(o, bytes);
	if (choice ? !is_text(words) : words.length != 0)
		fault(o, choice ? "the words of a choice stand in quotes" : "a default is a value alone");
	if (o->label == NO_LABEL || r->refused)
		return;
	struct label *label = &r->store.made[o->label].label;
	if (!choice)
		label->given = memcpy(r->store.given + label->offset, bytes, label->length);
	else if (label->length > 8 || label->choices == MOST_CHOICES ||
		 !add_choice(r, names_as_number(label, bytes), unquote(words)))
		fault(o, "a choice has words, a setting of 8 bytes at most, and 1024 of them");
	else
		r->store.made[o->label].label.choices++;
	end_line(o);
}

/* ---- lines ---- */

static void take_line(struct own *o)
{
	const struct names_for *image = o->r->image;
	const struct span word = take_word(o);
	if (span_is(word, "identity"))
		take_identity(o);
	else if (span_is(word, "revision"))
		take_part(o, "revision", image->revision, &o->revision);
	else if (span_is(word, "extended"))
		take_part(o, "extended", image->extended, &o->extended);
	else if (span_is(word, "find"))
		take_find(o);
	else if (span_is(word, "default") || span_is(word, "choice"))
		take_of_name(o, span_is(word, "choice"));
	else if (word.length != 0)
		take_name(o, word);
}

/* The lines that a text must have: without them it would go for any image. */
static void need_parts(struct own *o)
{
	const struct names_for *image = o->r->image;
	if (!o->identity)
		refuse(o->r, NAMES_OTHER, 0, "it has no identity line: write identity %s if it is for this "
		       "image", hex_of(image->identity).text);
	if (!o->revision)
		refuse(o->r, NAMES_OTHER, 0, "it has no revision line: write revision 0x%08" PRIX64
		       " if it is for this image", image->revision);
	if (!o->extended && image->extended != 0)
		refuse(o->r, NAMES_OTHER, 0, "it has no extended line: write extended 0x%04" PRIX64
		       " if it is for this image", image->extended);
}

/* All lines. */
void read_text(struct reading *r)
{
	struct own o = { .r = r, .label = NO_LABEL };
	struct span rest = { r->at, (size_t)(r->end - r->at) };
	while (rest.length > 0 && !r->refused) {
		const char *end = memchr(rest.at, '\n', rest.length);
		const size_t length = end == NULL ? rest.length : (size_t)(end - rest.at);
		o.line = r->line++;
		o.rest = (struct span){ rest.at, length };
		take_line(&o);
		const size_t passed = end == NULL ? length : length + 1;
		rest = (struct span){ rest.at + passed, rest.length - passed };
	}
	need_parts(&o);
}
