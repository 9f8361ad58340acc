/*
 * The maker's names beside an image's settings. Which bytes an image has is asked of the library's
 * `setting`; names that don't fit are refused, and defaults that aren't the image's are told first
 * of all: they are what names of another revision look like.
 */
#include "naming.h"

#include <inttypes.h>
#include <stdlib.h>
#include <string.h>

#include "files.h"
#include "letters.h"
#include "messages.h"
#include "pajurenda.h"
#include "show.h"

/* ---- the file ---- */

/* What names must fit: the mark stands where the library has found the region. */
static struct names_for wanted_for(const struct bytes *image, const uint8_t *reading)
{
	struct names_for wanted = {
		.size = (uint32_t)pajurenda_field(reading, PAJURENDA_READ_SIZE),
		.revision = pajurenda_field(reading, PAJURENDA_READ_REVISION),
		.extended = pajurenda_field(reading, PAJURENDA_READ_EXTENDED),
	};
	const uint64_t region = pajurenda_field(reading, PAJURENDA_READ_REGION);
	memcpy(wanted.identity, pajurenda_identity(reading), sizeof wanted.identity);
	if (has_bytes(image, region, sizeof wanted.mark))
		memcpy(wanted.mark, image->at + region, sizeof wanted.mark);
	return wanted;
}

/* All settings of an image that reads, as the library hands them out. */
static struct settings settings_of(const struct bytes *image, const uint8_t *reading)
{
	uint8_t answer[PAJURENDA_SETTING_BYTES] = { 0 };
	const uint64_t size = pajurenda_field(reading, PAJURENDA_READ_SIZE);
	if (pajurenda_setting(image->at, image->length, 32, size - 32, answer, sizeof answer) !=
	    PAJURENDA_ACCEPTED)
		return (struct settings){ .at = image->at, .first = 32, .end = 32 };
	return (struct settings){ .at = image->at + pajurenda_field(answer, PAJURENDA_SETTING_PLACE),
				  .first = 32, .end = (uint32_t)size };
}

/* Why the names are not taken. */
static void refuse_names(const struct naming *naming, const struct names_problem *why)
{
	fputs("pajurenda: ", stderr);
	say_name(naming->file.name);
	if (why->line != 0)
		fprintf(stderr, ": line %zu", why->line);
	fputs(": ", stderr);
	say_name(why->text);
	fputc('\n', stderr);
}

/* With --names-strict no default may differ; false after a message. */
static bool is_strict_enough(const struct naming *naming, const struct options *options)
{
	if ((options->given & STRICT) == 0 || naming->differing.differ == 0)
		return true;
	put_naming(stderr, "pajurenda: ", naming);
	fputs("pajurenda: ", stderr);
	say_name(naming->file.name);
	fputs(": refused by --names-strict\n", stderr);
	return false;
}

/* The names that are asked for, for an image that reads; false after a message. The image's bytes
   must stay while the names are used. */
bool load_naming(const struct options *options, const struct named *image, const uint8_t *reading,
		 struct naming *naming)
{
	struct names_problem why;
	const struct names_for wanted = wanted_for(&image->bytes, reading);
	*naming = (struct naming){ .file = { .name = options->names } };
	if (options->names == NULL)
		return true;
	if (!load(naming->file.name, &naming->file.bytes))
		return false;
	if (!names_read(naming->file.bytes.at, naming->file.bytes.length, &wanted, &naming->names, &why)) {
		refuse_names(naming, &why);
		naming->names = (struct names){ .count = 0 };
		return false;
	}
	naming->settings = settings_of(&image->bytes, reading);
	naming->differing = names_defaults_differ(&naming->names, &naming->settings);
	return is_strict_enough(naming, options);
}

/* All memory back. */
void end_naming(struct naming *naming)
{
	names_free(&naming->names);
	free(naming->file.bytes.at);
	*naming = (struct naming){ .file = { .name = NULL } };
}

/* ---- what it says ---- */

/* The names; NULL where none were asked for. */
const struct names *names_of(const struct naming *naming)
{
	return naming->file.name == NULL ? NULL : &naming->names;
}

/* The image's bytes of a name; NULL where it isn't among the settings. */
const uint8_t *found_of(const struct naming *naming, const struct label *label)
{
	const struct settings *all = &naming->settings;
	if (label->offset < all->first || label->offset + (uint64_t)label->length > all->end)
		return NULL;
	return all->at + (label->offset - all->first);
}

/* The next name that has a byte from an offset up to an end; the offset is then the one after it. NULL where
   there is none, or no names. */
const struct label *next_name(const struct names *names, uint64_t *at, uint64_t end)
{
	while (names != NULL && *at < end) {
		const struct label *label = names_at(names, (uint32_t)*at);
		*at = label == NULL ? *at + 1 : (uint64_t)label->offset + label->length;
		if (label != NULL)
			return label;
	}
	return NULL;
}

/* What came of a word that is no name, with the nearest ones. */
void say_nearest(const struct names *names, const char *word, enum names_sought sought)
{
	const struct label *nearest[NEAREST];
	const size_t count = names_nearest(names, word, nearest);
	fputs(sought == NAME_SEVERAL ? "is the end of several names: write the whole one"
				     : "is none of the names", stderr);
	for (size_t i = 0; i < count; i++)
		fprintf(stderr, "%s%s", i == 0 ? "; the nearest: " : ", ", nearest[i]->name);
	fputc('\n', stderr);
}

/* A name whose default isn't what is found. */
static void put_different(FILE *to, const char *before, const struct naming *naming,
			  const struct label *label)
{
	const size_t shown = label->length < 16 ? label->length : 16;
	fprintf(to, "%snames: %s at 0x%04" PRIX32 " has the default ", before, label->name, label->offset);
	show_apart(to, label->given, shown);
	fputs(" and here is ", to);
	show_apart(to, found_of(naming, label), shown);
	fputs(shown < label->length ? " ..\n" : "\n", to);
}

/* What must be known before anything that is named: how many names, what was passed over, and the
   defaults that differ. */
void put_naming(FILE *to, const char *before, const struct naming *naming)
{
	const struct names_differing *differing = &naming->differing;
	if (naming->file.name == NULL)
		return;
	fprintf(to, "%snames %zu of ", before, naming->names.count);
	put_name(to, naming->file.name);
	fputc('\n', to);
	if (naming->names.passed != 0) {
		fputs(before, to);
		names_put_passed(to, naming->file.name, &naming->names);
	}
	if (differing->differ == 0)
		return;
	fprintf(to, "%snames: %zu of %zu defaults are not what the image has: probably names of another "
		"revision\n", before, differing->differ, differing->compared);
	for (size_t i = 0; i < FIRST_DIFFERENT && i < differing->differ; i++)
		put_different(to, before, naming, differing->first[i]);
}
