/* What stands in any bytes where document 01 looks, for showing alone. */
#ifndef COMMAND_LETTERS_H
#define COMMAND_LETTERS_H

#include <stdbool.h>

#include "command.h"

/* The document's letters; one that lies past the file's end is 0. Where a number refuses an image,
   the letters of the rules before it are the library's own. */
struct letters {
	const struct bytes *image;
	uint64_t h, V, x, e;
	uint64_t f, s, section;
	uint64_t H, L;
	uint64_t g; /* round4(H+L), where an FSPE may stand before p */
	uint64_t p, n, E;
	uint64_t c, z;
};

bool has_bytes(const struct bytes *file, uint64_t at, uint64_t count);
uint64_t number_at(const struct bytes *file, uint64_t at, size_t width);
bool stands(const struct bytes *file, uint64_t at, const char *mark);
struct letters letters_of(const struct bytes *image);
uint64_t entry_at(const struct letters *w, uint64_t index);
int64_t where_it_points(uint64_t entry, size_t length);

#endif
