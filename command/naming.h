/* The maker's names beside an image's settings, where --names gives a file of them. */
#ifndef COMMAND_NAMING_H
#define COMMAND_NAMING_H

#include <stdbool.h>
#include <stdio.h>

#include "names.h"
#include "refusals.h"

/* The file, no name where none is given; its names; and how its defaults stand to the image. */
struct naming {
	struct named file;
	struct names names;
	struct names_differing differing;
	struct settings settings; /* the image's own, which the defaults are held against */
};

bool load_naming(const struct options *options, const struct named *image, const uint8_t *reading,
		 struct naming *naming);
const struct names *names_of(const struct naming *naming);
const uint8_t *found_of(const struct naming *naming, const struct label *label);
const struct label *next_name(const struct names *names, uint64_t *at, uint64_t end);
void say_nearest(const struct names *names, const char *word, enum names_sought sought);
void put_naming(FILE *to, const char *before, const struct naming *naming);
void end_naming(struct naming *naming);

#endif
