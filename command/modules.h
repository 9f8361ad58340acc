/* Files and sections of an image that was refused with 25 to 27, as far as they go; for showing alone. */
#ifndef COMMAND_MODULES_H
#define COMMAND_MODULES_H

#include "letters.h"

/* Where a walk over the volume's files stopped. */
enum stop { AT_END, AT_FILE, AT_SECTION, NO_MEMORY };

/* A section that holds a module, and the file it is in. */
struct held {
	uint64_t file, section;
};

/* The walk: the file and the section at hand, and every section passed that holds a module. */
struct files {
	const struct bytes *image;
	uint64_t end; /* V, or the image's end */
	enum stop stop;
	uint64_t count;         /* how many files were passed */
	uint64_t file, section; /* the last that was looked at */
	uint64_t file_end;
	struct held *held;
	size_t modules, room;
};

struct files follow_files(const struct letters *w);
void say_module_values(const struct letters *w, uint32_t number);
unsigned sum_of_file(const struct bytes *image, uint64_t file);

#endif
