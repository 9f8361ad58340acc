/* The audit's list as ranges, each with where it lies. */
#ifndef COMMAND_RANGES_H
#define COMMAND_RANGES_H

#include <stdio.h>

#include "checked.h"
#include "letters.h"
#include "volumes.h"

/* What a position belongs to: for a patch word its entry's index, for a relocation word its number in the
   module, in the tables the field, for a further volume its number; and the module that holds the position,
   whatever it belongs to. */
struct lying {
	enum room room;
	uint64_t index;
	uint64_t module;
};

/* The region of an image that has none: no position lies there. */
#define NO_REGION UINT64_MAX

/* The vendor image's rooms; its words and modules in order of position, of which some are passed. */
struct map {
	const struct contents *contents;
	bool older; /* of edition 1 */
	struct letters letters;
	uint64_t header, end, region;
	uint64_t words, modules;
	struct stretches stretches; /* the volume at hand, and what follows it */
	struct stretch stretch;
};

/* Positions of one kind in a row; of settings what the sheets make of them. */
struct range {
	bool stray;
	uint64_t first, last;
	struct lying where;
	struct settled set;
};

/* A list that is being gone through. */
struct ranges {
	const struct check *check;
	const struct findings *findings;
	struct map map;
	uint64_t count, next;
};

void start_ranges(struct ranges *ranges, const struct check *check);
void start_changes(struct ranges *ranges, const struct check *check);
bool next_range(struct ranges *ranges, struct range *range);
const char *name_room(enum room room);
uint64_t length_of(const struct range *range);
void put_lying(FILE *to, const struct contents *contents, const struct lying *where, uint64_t offset);
void put_where(FILE *to, const struct ranges *ranges, const struct range *range);
void put_place(FILE *to, const struct ranges *ranges, const struct range *range);
void put_range_bytes(FILE *to, const struct bytes *file, const struct range *range, uint64_t most);
bool range_change(const struct ranges *ranges, const struct range *range, struct change *change);
void put_range_names(FILE *to, const struct ranges *ranges, const struct range *range,
		     const char *between);
void put_changed(FILE *to, const struct ranges *ranges, const struct range *range);
void put_range(FILE *to, const struct ranges *ranges, const struct range *range, uint64_t most);

#endif
