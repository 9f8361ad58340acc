/* What stands where a file is to be written: of an image that reads, what it is. */
#include "standing.h"

#include <inttypes.h>
#include <stdio.h>
#include <stdlib.h>

#include "edition.h"
#include "files.h"
#include "messages.h"
#include "pajurenda.h"
#include "show.h"

/* An image by its own words. */
static void say_image(const uint8_t *reading)
{
	static const char letter[] = "?TMSI";
	const uint64_t component = pajurenda_field(reading, PAJURENDA_READ_COMPONENT);
	if (is_older(reading))
		fputs("an image of edition 1, identity ", stderr);
	else
		fprintf(stderr, "an image, component %c, identity ", letter[component <= 4 ? component : 0]);
	show_identity(stderr, pajurenda_identity(reading));
	fputs(", version ", stderr);
	show_version_of(stderr, reading);
	fprintf(stderr, ", base 0x%08" PRIX64, pajurenda_field(reading, PAJURENDA_READ_BASE));
}

/* What a file is, as far as it can be said. */
static void say_what(const char *name)
{
	uint8_t reading[PAJURENDA_READ_BYTES] = { 0 };
	struct bytes file = { .at = NULL };
	if (!load_quietly(name, &file)) {
		fputs("a file that can't be read", stderr);
		return;
	}
	if (pajurenda_read(file.at, file.length, reading, sizeof reading) == PAJURENDA_ACCEPTED)
		say_image(reading);
	else if (file.length <= PAJURENDA_MOST_IMAGE)
		fprintf(stderr, "%zu byte%s, no image", file.length, file.length == 1 ? "" : "s");
	else
		fputs("a file longer than any image", stderr);
	free(file.at);
}

/* It stays as it is. */
enum status tell_standing(const char *name)
{
	fputs("pajurenda: ", stderr);
	say_name(name);
	fputs(" is there already: ", stderr);
	say_what(name);
	fputs("; it stays as it is, and nothing is written: name another file, or give --replace\n", stderr);
	return FAILED;
}
