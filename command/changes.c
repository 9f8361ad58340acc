/*
 * Settings before and after. Where a setting lies is the library's answer; here its bytes are shown,
 * as the number that they are where they are as many as a number has, and by the maker's names.
 */
#include "changes.h"

#include <inttypes.h>
#include <string.h>

#include "letters.h"
#include "messages.h"
#include "naming.h"
#include "pajurenda.h"
#include "show.h"

/* How many bytes of a value stand in a line, and how many names. */
#define MOST_SHOWN ((size_t)16)
#define MOST_NAMED 8

/* ---- found ---- */

/* What these bytes at an offset would replace; false where the library finds no such setting. */
bool find_change(const struct bytes *image, uint64_t offset, const uint8_t *new, size_t length,
		 struct change *change)
{
	uint8_t answer[PAJURENDA_SETTING_BYTES] = { 0 };
	if (pajurenda_setting(image->at, image->length, offset, length, answer, sizeof answer) !=
	    PAJURENDA_ACCEPTED)
		return false;
	const uint64_t place = pajurenda_field(answer, PAJURENDA_SETTING_PLACE);
	*change = (struct change){ .offset = offset, .place = place, .length = length, .new = new };
	if (!has_bytes(image, place, length))
		return false;
	change->old = image->at + place;
	return true;
}

/* The same of an entry of a sheet that the library has taken for the image. */
bool entry_change(const struct bytes *image, const struct bytes *sheet, uint64_t index,
		  struct change *change)
{
	const uint64_t at = PAJURENDA_EMPTY_SHEET + PAJURENDA_ENTRY_BYTES * index;
	const uint64_t length = number_at(sheet, at + 4, 2), body = number_at(sheet, at + 6, 2);
	return has_bytes(sheet, body, length) &&
	       find_change(image, number_at(sheet, at, 4), sheet->at + body, (size_t)length, change);
}

/* How many of the bytes are others afterwards. */
uint64_t count_changed(const struct change *change)
{
	uint64_t changed = 0;
	for (size_t i = 0; i < change->length; i++)
		changed += change->old[i] != change->new[i];
	return changed;
}

/* ---- shown ---- */

/* Bytes apart, a long row cut. */
static void put_shown(FILE *to, const uint8_t *bytes, size_t length)
{
	show_apart(to, bytes, length < MOST_SHOWN ? length : MOST_SHOWN);
	fputs(length > MOST_SHOWN ? " .." : "", to);
}

/* The number that 2, 4 or 8 bytes are, low byte first, after this; nothing of any other length. */
void put_number_of(FILE *to, const char *before, const uint8_t *bytes, size_t length)
{
	if (length == 2 || length == 4 || length == 8)
		fprintf(to, "%s0x%0*" PRIX64, before, (int)(2 * length), pajurenda_number(bytes, length));
}

/* Offset, position and both values, also as numbers. */
void put_change(FILE *to, const struct change *change)
{
	show_offset(to, change->offset);
	fprintf(to, " at %" PRIu64 ": ", change->place);
	put_shown(to, change->old, change->length);
	if (count_changed(change) == 0) {
		put_number_of(to, ", ", change->old, change->length);
		fputs(", changes nothing", to);
		return;
	}
	fputs(" -> ", to);
	put_shown(to, change->new, change->length);
	put_number_of(to, ", ", change->old, change->length);
	put_number_of(to, " -> ", change->new, change->length);
}

/* ---- by name ---- */

/* A whole setting's new bytes: where only the change's are there, they go over the old ones. */
static void lay_over(const struct change *change, const struct label *label, uint8_t *value)
{
	if (change->whole) {
		memcpy(value, change->new + label->offset - change->offset, label->length);
		return;
	}
	for (uint32_t i = 0; i < label->length; i++) {
		const uint64_t offset = (uint64_t)label->offset + i;
		if (offset >= change->offset && offset - change->offset < change->length)
			value[i] = change->new[offset - change->offset];
	}
}

/* A value by the words of its choice, and the number that its bytes are. */
void put_label_value(FILE *to, const struct label *label, const uint8_t *bytes)
{
	names_put_value(to, label, bytes);
	put_number_of(to, " = ", bytes, label->length);
}

/* A name with its value before and after; of a long value only the name. */
static void put_named(FILE *to, const struct change *change, const struct label *label,
		      const char *between)
{
	uint8_t value[MOST_SHOWN];
	names_put_label(to, label);
	if (label->length > MOST_SHOWN || label->offset < 32) {
		fprintf(to, " of %" PRIu32 " bytes", label->length);
		return;
	}
	const uint8_t *old = change->old + label->offset - change->offset;
	memcpy(value, old, label->length);
	fputc(' ', to);
	put_label_value(to, label, value);
	lay_over(change, label, value);
	if (memcmp(value, old, label->length) == 0)
		return;
	fputs(between, to);
	put_label_value(to, label, value);
}

/* How many bytes of a setting the change has. */
static uint64_t count_shared(const struct change *change, const struct label *label)
{
	const uint64_t end = change->offset + change->length, last = (uint64_t)label->offset + label->length;
	const uint64_t from = label->offset > change->offset ? label->offset : change->offset;
	return (last < end ? last : end) - from;
}

/* Every name that the change touches, each after `; `; and how many bytes have none. Around the change's old bytes
   the image's others stand, and a name lies within its region. */
void put_names(FILE *to, const struct names *names, const struct change *change, const char *between)
{
	const uint64_t end = change->offset + change->length;
	uint64_t at = change->offset, bare = names == NULL ? 0 : change->length;
	const struct label *label;
	unsigned count = 0;
	while ((label = next_name(names, &at, end)) != NULL) {
		bare -= count_shared(change, label);
		if (++count > MOST_NAMED)
			continue;
		fputs("; ", to);
		put_named(to, change, label, between);
	}
	if (count > MOST_NAMED)
		fprintf(to, "; and %u names more", count - MOST_NAMED);
	if (bare != 0)
		fprintf(to, "; %" PRIu64 " byte%s without a name", bare, bare == 1 ? "" : "s");
}

/* Every name that settings have, a line each with its value. */
void show_named(const struct names *names, const struct change *change)
{
	uint64_t at = change->offset;
	const struct label *label;
	while ((label = next_name(names, &at, change->offset + change->length)) != NULL) {
		fputs("name ", stdout);
		put_named(stdout, change, label, " -> ");
		putchar('\n');
	}
}

/* Every entry of a sheet that the library has taken for the image, a line each. */
enum status show_changes(const struct bytes *image, const struct bytes *sheet,
			 const struct names *names)
{
	const uint64_t count = number_at(sheet, 12, 2);
	struct change change;
	for (uint64_t i = 0; i < count && ferror(stdout) == 0; i++) {
		if (!entry_change(image, sheet, i, &change))
			return fail_answer();
		fputs("set ", stdout);
		put_change(stdout, &change);
		put_names(stdout, names, &change, " -> ");
		putchar('\n');
	}
	return FINE;
}
