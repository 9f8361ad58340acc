/* What a sheet's entries and an audit's ranges make of settings: bytes before and after, and their names. */
#ifndef COMMAND_CHANGES_H
#define COMMAND_CHANGES_H

#include <stdbool.h>
#include <stdio.h>

#include "command.h"
#include "names.h"

/* Settings before and after: where they lie, and so many bytes of each. */
struct change {
	uint64_t offset, place;
	size_t length;
	const uint8_t *old, *new;
	bool whole; /* the new bytes stand in an image too, as the old ones do, its others around them */
};

bool find_change(const struct bytes *image, uint64_t offset, const uint8_t *new, size_t length,
		 struct change *change);
bool entry_change(const struct bytes *image, const struct bytes *sheet, uint64_t index,
		  struct change *change);
uint64_t count_changed(const struct change *change);
void put_number_of(FILE *to, const char *before, const uint8_t *bytes, size_t length);
void put_label_value(FILE *to, const struct label *label, const uint8_t *bytes);
void put_change(FILE *to, const struct change *change);
void put_names(FILE *to, const struct names *names, const struct change *change, const char *between);
void show_named(const struct names *names, const struct change *change);
enum status show_changes(const struct bytes *image, const struct bytes *sheet,
			 const struct names *names);

#endif
