#include "owners.h"

#include "numbers.h"

#define RANGE_BYTES 8
#define MOST_RANGES 64

/* #106, DESIGN: offset in the region, length, owner. */
static struct range range_at(const struct owners *o, uint64_t i)
{
	const uint64_t at = RANGE_BYTES * i;
	return (struct range){
		.offset = little(o->bytes, at, 4),
		.length = little(o->bytes, at + 4, 2),
		.owner = little(o->bytes, at + 6, 2),
	};
}

/* #106: there are two owners. */
static bool is_owner(uint64_t owner)
{
	return owner == 1 || owner == 2;
}

/* Refusal 23: each range begins where the one before ends or later, the first at 32 or later; none is empty or ends above z. */
static bool refuse_ranges(const struct owners *o, uint64_t z)
{
	uint64_t end = 32;
	for (uint64_t i = 0; i < o->length / RANGE_BYTES; i++) {
		const struct range range = range_at(o, i);
		if (range.offset < end || range.length == 0 || !is_owner(range.owner))
			return true;
		end = range.offset + range.length;
		if (end > z)
			return true;
	}
	return false;
}

/* Refusal 23: whole ranges, at most 64 of them, and a caller who is an owner. */
bool second_owners_refused(const struct owners *o, uint64_t z)
{
	if (o->length % RANGE_BYTES != 0 || o->length / RANGE_BYTES > MOST_RANGES)
		return true;
	return refuse_ranges(o, z) || !is_owner(o->caller);
}

/* #106: some range of the caller's has this byte of the region; a byte in no range is nobody's. */
static bool callers_byte(const struct owners *o, uint64_t at)
{
	for (uint64_t i = 0; i < o->length / RANGE_BYTES; i++) {
		const struct range range = range_at(o, i);
		if (range.owner == o->caller && at >= range.offset && at - range.offset < range.length)
			return true;
	}
	return false;
}

/* Refusal 24: one entry, byte by byte, so that it may go over from one range of the caller's to the next. */
static bool field_outside(const struct owners *o, const struct field *field)
{
	for (uint64_t k = 0; k < field->length; k++)
		if (!callers_byte(o, field->offset + k))
			return true;
	return false;
}

/* Refusal 24. */
bool second_owners_outside(const struct owners *o, const struct sheet *s)
{
	for (uint64_t i = 0; i < s->m; i++) {
		const struct field field = second_sheet_field(s, i);
		if (field_outside(o, &field))
			return true;
	}
	return false;
}
