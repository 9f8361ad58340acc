#include "year.h"

#include <stddef.h>
#include <stdlib.h>
#include <string.h>

#include "sheet.h"

#define EMPTY_SHEET 16

/* #113: the vendor image as it was, as the accepted sheets make it at its own base, and a copy to ask questions of. */
struct year {
	const uint8_t *vendor;
	uint64_t length;
	struct second_reading reading;
	uint8_t *settled, *asked;
	uint64_t base;	/* the last accepted one, or the vendor's */
};

/* #113: a copy of the vendor image; nobody goes on without memory. */
static uint8_t *copy_of(const uint8_t *bytes, uint64_t length)
{
	uint8_t *copy = malloc((size_t)length);
	if (copy == NULL)
		abort();
	memcpy(copy, bytes, (size_t)length);
	return copy;
}

/*
 * #113: what a call answers. Nothing that a refusal asks for (identity, z, length, the list, the sheet, the base asked
 * for) is changed by a release, so the vendor image is asked; the move is from the base that the calls before led to.
 */
static struct second_released ask(struct year *y, const struct second_order *o)
{
	memcpy(y->asked, y->vendor, (size_t)y->length);
	struct second_released answer =
		second_release(y->asked, y->length, o->sheet, o->sheet_length, o->new_base,
			       o->owners, o->owners_length, o->owner);
	if (answer.number == 0)
		answer.move = (int64_t)o->new_base - (int64_t)y->base;
	return answer;
}

/* "The release sheet", #113: the bodies of an accepted sheet at the vendor's base, by its entries alone. */
static void settle(struct year *y, const struct second_order *o)
{
	struct sheet s = { .bytes = o->sheet, .length = o->sheet_length };
	if (second_sheet_refused(&s))
		return;
	for (uint64_t i = 0; i < s.m; i++) {
		const struct field field = second_sheet_field(&s, i);
		memcpy(y->settled + y->reading.c + field.offset, o->sheet + field.body, (size_t)field.length);
	}
}

/* #113: all calls; a refused one leaves nothing behind. */
static void play(struct year *y, const struct second_order *orders, uint64_t count, struct second_released *answers)
{
	for (uint64_t i = 0; i < count; i++) {
		const struct second_released answer = ask(y, &orders[i]);
		if (answers != NULL)
			answers[i] = answer;
		if (answer.number != 0)
			continue;
		settle(y, &orders[i]);
		y->base = orders[i].new_base;
	}
}

/* #102, #113: the image's own identity in a sheet without entries, from the bytes of the header. */
static void empty_sheet(const struct year *y, uint8_t *sheet)
{
	memset(sheet, 0, EMPTY_SHEET);
	memcpy(sheet, y->vendor + y->reading.H + 16, 8);
	memcpy(sheet + 8, y->vendor + y->reading.H + 12, 4);
	sheet[14] = (uint8_t)y->reading.extended;
	sheet[15] = (uint8_t)(y->reading.extended >> 8);
}

/* "Moving", #113: the settled image, moved once. */
static void move_settled(const struct year *y, uint8_t *image)
{
	uint8_t sheet[EMPTY_SHEET];
	const uint8_t no_owners[1] = { 0 };

	memcpy(image, y->settled, (size_t)y->length);
	empty_sheet(y, sheet);
	if (second_release(image, y->length, sheet, EMPTY_SHEET, y->base, no_owners, 0, 1).number != 0)
		abort();
}

/* "The audit": how many bits of two bytes differ. */
static uint64_t turned_bits(uint8_t one, uint8_t other)
{
	uint64_t count = 0;
	for (unsigned bit = 0; bit < 8; bit++)
		count += (one >> bit & 1) != (other >> bit & 1) ? 1 : 0;
	return count;
}

/* #113: exactly the positions where the vendor image and the settled one differ, all of them settings. */
static struct second_audited differences(const struct year *y, uint32_t *places, uint64_t places_count)
{
	struct second_audited a = { .base = y->base, .explained = 1 };
	for (uint64_t at = 0; at < y->length; at++) {
		if (y->vendor[at] == y->settled[at])
			continue;
		if (a.settings < places_count)
			places[a.settings] = (uint32_t)at;
		a.settings++;
		a.bits += turned_bits(y->vendor[at], y->settled[at]);
	}
	return a;
}

/* Refusal 20: the list is left as it was where it is too short, so the differences are counted before they are listed. */
static struct second_audited list_differences(const struct year *y, uint32_t *places, uint64_t places_count)
{
	struct second_audited a = differences(y, NULL, 0);
	if (a.settings <= places_count)
		return differences(y, places, places_count);
	a.number = 20;
	a.explained = 0;
	return a;
}

struct second_audited second_year(const uint8_t *vendor, uint64_t length,
				  const struct second_order *orders, uint64_t count,
				  const struct second_wanted *wanted,
				  uint32_t *places, uint64_t places_count)
{
	struct year y = { .vendor = vendor, .length = length, .reading = second_read(vendor, length) };

	if (y.reading.number != 0)
		return (struct second_audited){ .number = y.reading.number, .index = y.reading.index };
	if (y.reading.component == 0)
		return (struct second_audited){ .number = 28 };
	y.base = y.reading.base;
	y.settled = copy_of(vendor, length);
	y.asked = copy_of(vendor, length);
	play(&y, orders, count, wanted->answers);
	move_settled(&y, wanted->image);
	const struct second_audited a = list_differences(&y, places, places_count);
	free(y.settled);
	free(y.asked);
	return a;
}
