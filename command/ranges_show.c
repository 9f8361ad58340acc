/* Ranges in words: where each lies, its bytes in both files, its names, and who sets it. */
#include <inttypes.h>
#include <stdio.h>

#include "fields.h"
#include "messages.h"
#include "module_names.h"
#include "ranges.h"
#include "show.h"

uint64_t length_of(const struct range *range)
{
	return range->last - range->first + 1;
}

const char *name_room(enum room room)
{
	static const char *const names[] = {
		[BASE_WORD] = "base word",         [PATCH_WORD] = "patch word",
		[IMAGE_BASE] = "image base",       [RELOCATION_WORD] = "relocation word",
		[TABLES] = "tables",               [REGION_HEADER] = "region header",
		[SETTINGS] = "region offset",      [MODULE_BYTES] = "module",
		[ELSEWHERE] = "elsewhere",         [IN_VOLUME] = "in volume",
		[AFTER_VOLUME] = "after the volume", [FSP_HEADER] = "FSP header",
	};
	return names[room];
}

/* A module: its number, its name where its file has one, and its file's GUID. */
static void put_module(FILE *to, const struct contents *contents, uint64_t module)
{
	char name[MODULE_NAME_BYTES];
	fprintf(to, "module %" PRIu64 " ", module);
	if (name_module(contents, module, name)) {
		fputc('"', to);
		put_name(to, name);
		fputs("\" ", to);
	}
	show_guid(to, guid_of(contents, module));
}

/* What something belongs to, from this offset of the region on where it is a setting, and the module that holds it;
   of a module's other bytes the module alone. */
void put_lying(FILE *to, const struct contents *contents, const struct lying *where, uint64_t offset)
{
	if (where->room != MODULE_BYTES)
		fputs(name_room(where->room), to);
	if (where->room == PATCH_WORD || where->room == RELOCATION_WORD || where->room == IN_VOLUME)
		fprintf(to, " %" PRIu64, where->index);
	if (where->room == TABLES) {
		fputs(": ", to);
		put_field(to, where->index);
	}
	if (where->room == SETTINGS)
		fprintf(to, " 0x%04" PRIX64, offset);
	if (where->module == NO_MODULE)
		return;
	fputs(where->room == MODULE_BYTES ? "" : " in ", to);
	put_module(to, contents, where->module);
}

/* What a range belongs to. */
void put_where(FILE *to, const struct ranges *ranges, const struct range *range)
{
	put_lying(to, ranges->map.contents, &range->where, range->first - ranges->map.region);
}

/* Kind, first and last position, length, and where it lies. */
void put_place(FILE *to, const struct ranges *ranges, const struct range *range)
{
	fprintf(to, "%c %" PRIu64 "..%" PRIu64 " length %" PRIu64 " ", range->stray ? 'X' : 'S',
		range->first, range->last, length_of(range));
	put_where(to, ranges, range);
}

/* A range's bytes in a file, at most so many of them. */
void put_range_bytes(FILE *to, const struct bytes *file, const struct range *range, uint64_t most)
{
	const uint64_t count = length_of(range) < most ? length_of(range) : most;
	if (!has_bytes(file, range->first, length_of(range)))
		return;
	show_apart(to, file->at + range->first, (size_t)count);
	fputs(count < length_of(range) ? " .." : "", to);
}

/* Who sets a setting, and whether the file has what the maker delivered; of a verify alone. */
static void put_setter(FILE *to, const struct check *check, const struct range *range)
{
	if (check->settled == NULL || range->stray)
		return;
	if (range->set.sheet == 0) {
		fputs(", no sheet sets it", to);
		return;
	}
	fputs(range->set.changed ? ", neither the sheet's nor the maker's" : ", still as the maker's", to);
	fprintf(to, ", entry %" PRIu32 " of ", range->set.entry);
	put_name(to, check->sheets[range->set.sheet - 1].name);
}

/* A setting's bytes in what the file should be and in the file; false of a stray. */
bool range_change(const struct ranges *ranges, const struct range *range, struct change *change)
{
	const struct check *check = ranges->check;
	const uint64_t length = length_of(range);
	if (range->stray || !has_bytes(&check->reference, range->first, length) ||
	    !has_bytes(&check->shipped.bytes, range->first, length))
		return false;
	*change = (struct change){ .offset = range->first - ranges->map.region, .place = range->first,
				   .length = (size_t)length, .old = check->reference.at + range->first,
				   .new = check->shipped.bytes.at + range->first, .whole = true };
	return true;
}

/* The names of a setting with both values, where there are names. */
void put_range_names(FILE *to, const struct ranges *ranges, const struct range *range,
		     const char *between)
{
	struct change change;
	if (range_change(ranges, range, &change))
		put_names(to, names_of(&ranges->check->naming), &change, between);
}

/* The number that a range's bytes are in a file, where it is a setting. */
static void put_range_number(FILE *to, const struct bytes *file, const struct range *range)
{
	if (!range->stray && has_bytes(file, range->first, length_of(range)))
		put_number_of(to, " = ", file->at + range->first, (size_t)length_of(range));
}

/* Settings that aren't the maker's any more: both values, and who set them. */
void put_changed(FILE *to, const struct ranges *ranges, const struct range *range)
{
	const struct check *check = ranges->check;
	const uint64_t length = length_of(range);
	if (!has_bytes(&check->vendor.bytes, range->first, length) ||
	    !has_bytes(&check->shipped.bytes, range->first, length))
		return;
	const struct change change = { .offset = range->first - ranges->map.region, .place = range->first,
				       .length = (size_t)length, .old = check->vendor.bytes.at + range->first,
				       .new = check->shipped.bytes.at + range->first, .whole = true };
	fputs("changed ", to);
	put_change(to, &change);
	if (range->set.sheet == 0) {
		fputs(", no sheet sets it", to);
	} else {
		const struct releaser *releaser = &check->releasers[range->set.sheet - 1];
		fprintf(to, ", sheet %" PRIu32 " entry %" PRIu32, range->set.sheet, range->set.entry);
		if (releaser->list != NULL)
			fprintf(to, " owner %" PRIu64, releaser->owner);
	}
	put_names(to, names_of(&check->naming), &change, " -> ");
	fputc('\n', to);
}

/* A range with both bytes, at most so many of them, and who sets it; in an audit the first are the maker's,
   moved. */
void put_range(FILE *to, const struct ranges *ranges, const struct range *range, uint64_t most)
{
	const struct check *check = ranges->check;
	put_place(to, ranges, range);
	fputs(check->verify ? " should " : " maker's ", to);
	put_range_bytes(to, &check->reference, range, most);
	put_range_number(to, &check->reference, range);
	fputs(" is ", to);
	put_range_bytes(to, &check->shipped.bytes, range, most);
	put_range_number(to, &check->shipped.bytes, range);
	put_setter(to, check, range);
	put_range_names(to, ranges, range, check->verify ? " is " : " -> ");
	fputc('\n', to);
}
