/* Refusals 23 and 24 in words: what the owner list says where the library found a fault. */
#include <inttypes.h>
#include <stdio.h>

#include "messages.h"
#include "owners.h"
#include "pajurenda.h"
#include "refusals.h"

/* Of a list that isn't text, how long it is: so that who meant a text sees what became of it. */
static void say_form(const struct owners *owners)
{
	if (owners->line != NULL)
		return;
	fputs("taken as bytes (it has a 0), ", saying());
	say_length(&owners->list);
	fputs(": ", saying());
}

/* Where a range stands: the line of a text, or its index. */
static void say_place(const struct owners *owners, size_t index)
{
	if (owners->line != NULL)
		fprintf(saying(), "line %zu", owners->line[index]);
	else
		fprintf(saying(), "range %zu (counted from 0)", index);
}

/* 23: a range, and what it is held against. */
enum status refuse_range(const struct owners *owners, size_t index, uint64_t size)
{
	const struct owned range = range_at(&owners->list, index);
	begin_refusal(PAJURENDA_OWNERS, owners->name);
	say_rule(PAJURENDA_OWNERS);
	say_form(owners);
	say_place(owners, index);
	fprintf(saying(), ": offset 0x%04" PRIX64, range.offset);
	if (index > 0) {
		const struct owned before = range_at(&owners->list, index - 1);
		fprintf(saying(), " (the one before ends at 0x%04" PRIX64 ")", before.offset + before.length);
	}
	fprintf(saying(), " length %" PRIu64 " owner %" PRIu64 ", ranges so far %zu", range.length,
		range.owner, index + 1);
	fprintf(saying(), ", the region's size z is 0x%04" PRIX64, size);
	return end_refusal();
}

/* 23: bytes after the last whole range. */
enum status refuse_rest(const struct owners *owners)
{
	begin_refusal(PAJURENDA_OWNERS, owners->name);
	say_rule(PAJURENDA_OWNERS);
	say_form(owners);
	fprintf(saying(), "ranges %zu, bytes over %zu", count_ranges(&owners->list),
		owners->list.length % PAJURENDA_RANGE_BYTES);
	return end_refusal();
}

/* 23: who asks is no owner; the list has no fault. */
enum status refuse_caller(const struct owners *owners, uint64_t owner)
{
	begin_refusal(PAJURENDA_OWNERS, owners->name);
	say_rule(PAJURENDA_OWNERS);
	fprintf(saying(), "the list is fine, --owner is %" PRIu64, owner);
	return end_refusal();
}

/* Whose an offset of the region is by a list, and where it says so. */
static void say_whose(const struct owners *owners, uint64_t offset)
{
	const size_t index = find_range(&owners->list, offset);
	if (index == count_ranges(&owners->list)) {
		fputs("nobody's by ", saying());
		put_name(saying(), owners->name);
		return;
	}
	const struct owned range = range_at(&owners->list, index);
	fprintf(saying(), "owner %" PRIu64 "'s by ", range.owner);
	put_name(saying(), owners->name);
	fputs(", ", saying());
	say_place(owners, index);
	fprintf(saying(), ": 0x%04" PRIX64 " %" PRIu64 " %" PRIu64, range.offset, range.length,
		range.owner);
}

/* 24: the entry, its first byte that isn't the caller's, and whose that is. */
enum status refuse_byte(const struct named *sheet, const struct asked *asked, uint64_t offset,
			const struct owners *owners, uint64_t owner)
{
	begin_refusal(PAJURENDA_OWNER, sheet->name);
	say_rule(PAJURENDA_OWNER);
	fprintf(saying(), "entry %" PRIu64 " (counted from 0) has offset 0x%04" PRIX64 " length %" PRIu64,
		asked->index, asked->offset, asked->length);
	fprintf(saying(), ", owner %" PRIu64 " asks, offset 0x%04" PRIX64 " is ", owner, offset);
	say_whose(owners, offset);
	return end_refusal();
}
