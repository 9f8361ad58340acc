/*
 * What stands in an image after its first volume. The library reads and moves the first one alone, as document 02 has it;
 * a component of several volumes keeps the others as they are. They are found by their mark, for showing alone: nothing is
 * judged by it.
 */
#include "volumes.h"

#include <inttypes.h>

#include "letters.h"
#include "messages.h"

/* Volumes start at a multiple of this, and have their length and their mark at these places. */
#define UNIT 8
#define LENGTH_AT 32
#define MARK_AT 40

/* ---- one after the other ---- */

/* A volume's mark stands where one that starts here has it. */
static bool starts_volume(const struct bytes *image, uint64_t at)
{
	return stands(image, at + MARK_AT, "_FVH");
}

/* Where the next volume starts, from a position on; the image's end where none does. */
static uint64_t find_volume(const struct bytes *image, uint64_t from)
{
	uint64_t at = (from + UNIT - 1) / UNIT * UNIT;
	while (at < image->length && !starts_volume(image, at))
		at += UNIT;
	return at < image->length ? at : image->length;
}

/* An image that reads, from its first volume on. */
void start_stretches(struct stretches *stretches, const struct bytes *image)
{
	*stretches = (struct stretches){ .image = image };
}

/* The next stretch; false at the image's end. A volume that says more than is left has what is left. */
bool next_stretch(struct stretches *stretches, struct stretch *stretch)
{
	const struct bytes *image = stretches->image;
	const uint64_t at = stretches->next, left = image->length - at;
	if (left == 0)
		return false;
	*stretch = (struct stretch){ .place = at };
	if (at % UNIT == 0 && starts_volume(image, at)) {
		const uint64_t length = number_at(image, at + LENGTH_AT, 8);
		stretch->length = length == 0 || length > left ? left : length;
		stretch->number = ++stretches->volumes;
	} else {
		stretch->length = find_volume(image, at + 1) - at;
	}
	stretches->next = at + stretch->length;
	return true;
}

/* ---- shown ---- */

/* In the lines of `read`. */
void show_volumes(const struct bytes *image)
{
	struct stretches stretches;
	struct stretch stretch;
	start_stretches(&stretches, image);
	while (next_stretch(&stretches, &stretch)) {
		if (stretch.number == 0)
			printf("bytes at %" PRIu64 " length %" PRIu64 ", in no volume", stretch.place, stretch.length);
		else
			printf("volume %" PRIu64 " at %" PRIu64 " length %" PRIu64, stretch.number, stretch.place,
			       stretch.length);
		puts(stretch.place == 0 ? "" : ", not walked: a move leaves it as it is");
	}
}

/* A stretch as an object. */
static void put_stretch(FILE *to, const struct stretch *stretch, const char *before)
{
	fprintf(to, "%s{\"what\": \"%s\", \"place\": %" PRIu64 ", \"length\": %" PRIu64 "}", before,
		stretch->number == 0 ? "bytes" : "volume", stretch->place, stretch->length);
}

/* As a member of the document of `read`. */
void write_volumes(const struct bytes *image)
{
	struct stretches stretches;
	struct stretch stretch;
	start_stretches(&stretches, image);
	fputs(",\n  \"volumes\": [", stdout);
	while (next_stretch(&stretches, &stretch))
		put_stretch(stdout, &stretch, stretch.place == 0 ? "" : ", ");
	putchar(']');
}

/* What follows the first volume, as a list of a record. */
void record_unwalked(FILE *to, const struct bytes *image)
{
	struct stretches stretches;
	struct stretch stretch;
	const char *before = "";
	start_stretches(&stretches, image);
	fputc('[', to);
	while (next_stretch(&stretches, &stretch)) {
		if (stretch.place == 0)
			continue;
		put_stretch(to, &stretch, before);
		before = ", ";
	}
	fputc(']', to);
}

/* Of a release: the further volumes that it leaves as they are. */
void tell_unwalked(const char *name, const struct bytes *image)
{
	struct stretches stretches;
	struct stretch stretch;
	uint64_t told = 0;
	start_stretches(&stretches, image);
	while (next_stretch(&stretches, &stretch)) {
		if (stretch.number < 2)
			continue;
		if (told++ == 0) {
			fputs("pajurenda: release: ", stderr);
			say_name(name);
			fputs(" has more than one volume, and a move walks the first: ", stderr);
		}
		fprintf(stderr, "%svolume %" PRIu64 " at %" PRIu64 " length %" PRIu64, told == 1 ? "" : ", ", stretch.number,
			stretch.place, stretch.length);
	}
	if (told != 0)
		fprintf(stderr, " stay%s as %s, at the old base\n", told == 1 ? "s" : "", told == 1 ? "it is" : "they are");
}
