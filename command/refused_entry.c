/* Refusals 12, 22, 13 and 14 in words: the patch entry at fault, and what it is held against. */
#include "refused_entry.h"

#include <inttypes.h>
#include <stdio.h>

#include "refusals.h"

/* A number with its letter or name before it. */
void say_letter(const char *name, uint64_t value)
{
	fprintf(saying(), "%s %" PRIu64, name, value);
}

/* 12, 22, 13, 14: the entry. */
static void say_entry(const struct letters *w, uint64_t index)
{
	say_letter("entry", index);
	fprintf(saying(), " (counted from 0) is 0x%08" PRIX64, entry_at(w, index));
}

/* 12 to 14: where it points, too. */
static void say_pointing(const struct letters *w, uint64_t index)
{
	say_entry(w, index);
	fprintf(saying(), " and points to %" PRId64,
		where_it_points(entry_at(w, index), w->image->length));
}

/* 12: the entry's type. */
void say_type(const struct letters *w, uint64_t index)
{
	say_pointing(w, index);
	say_letter(", its type is", entry_at(w, index) >> 24 & 15);
}

/* 22: the reserved bits, and the one they must all be like. */
void say_reserved(const struct letters *w, uint64_t index)
{
	const uint64_t entry = entry_at(w, index);
	say_entry(w, index);
	say_letter(", its bit 31 is", entry >> 31 & 1);
	say_letter(", its bits 30 to 28 are", entry >> 30 & 1);
	fprintf(saying(), "%" PRIu64 "%" PRIu64, entry >> 29 & 1, entry >> 28 & 1);
}

/* 13: where the image ends. */
void say_place(const struct letters *w, uint64_t index)
{
	say_pointing(w, index);
	fprintf(saying(), ", the image has %zu bytes", w->image->length);
}

/* The earlier entry that points nearest to a place; the index itself where there is none. */
static uint64_t nearest_before(const struct letters *w, uint64_t index)
{
	const int64_t place = where_it_points(entry_at(w, index), w->image->length);
	uint64_t nearest = index;
	int64_t least = INT64_MAX;
	for (uint64_t i = 0; i < index; i++) {
		const int64_t far = where_it_points(entry_at(w, i), w->image->length) - place;
		if ((far < 0 ? -far : far) < least) {
			least = far < 0 ? -far : far;
			nearest = i;
		}
	}
	return nearest;
}

/* 14: what it must be clear of. */
void say_overlap(const struct letters *w, uint64_t index)
{
	const uint64_t nearest = nearest_before(w, index);
	say_pointing(w, index);
	say_letter(", E", w->E);
	say_letter(", c", w->c);
	say_letter(", z", w->z);
	if (nearest == index)
		return;
	say_letter(", nearest earlier entry", nearest);
	fprintf(saying(), " at %" PRId64, where_it_points(entry_at(w, nearest), w->image->length));
}
