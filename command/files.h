/* Files read whole, and written whole or not at all. */
#ifndef COMMAND_FILES_H
#define COMMAND_FILES_H

#include <stdbool.h>

#include "command.h"

/* The most files that are written together. */
#define MOST_OUTPUTS ((size_t)8)

/* A file to write: its name and its bytes; no name where it isn't wanted. */
struct output {
	const char *name;
	struct bytes bytes;
};

bool load(const char *name, struct bytes *file);
bool load_whole(const char *name, struct bytes *file);
bool load_quietly(const char *name, struct bytes *file);
bool load_until(const char *name, struct bytes *file, size_t most,
		bool (*enough)(const struct bytes *file));
bool copy_bytes(const struct bytes *from, struct bytes *to);
bool is_same_file(const char *one, const char *other);
char *name_beside(const char *target, const char *other);

void let_replace(bool files);
bool is_free(const char *out);
bool save(const char *name, const struct bytes *file);
bool save_together(const struct output *outputs, size_t count);

#endif
