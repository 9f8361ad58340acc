/* join FILE COMPONENT.. OUT: released components in the places of theirs in a copy of a maker's file. */
#include <inttypes.h>
#include <stdio.h>
#include <stdlib.h>
#include <string.h>

#include "components.h"
#include "digest.h"
#include "files.h"
#include "json.h"
#include "messages.h"
#include "refusals.h"
#include "signs.h"

/* What an image is by: its letter, identity, revision and extended number are alike. */
static bool is_alike(const uint8_t *one, const uint8_t *other)
{
	static const size_t fields[] = { PAJURENDA_READ_COMPONENT, PAJURENDA_READ_REVISION, PAJURENDA_READ_EXTENDED };
	for (size_t i = 0; i < sizeof fields / sizeof fields[0]; i++)
		if (pajurenda_field(one, fields[i]) != pajurenda_field(other, fields[i]))
			return false;
	return memcmp(pajurenda_identity(one), pajurenda_identity(other), 8) == 0;
}

/* Why a component has no place. */
static bool fail_place(const struct named *part, const char *before, const char *file, const char *after)
{
	fputs("pajurenda: join: ", stderr);
	say_name(part->name);
	fputs(before, stderr);
	say_name(file);
	fprintf(stderr, "%s\n", after);
	return false;
}

/* The place of a component in the maker's file: the only one that is alike, and as long; false after a message. */
static bool find_place(const struct named *file, const struct named *part, const uint8_t *reading,
		       struct component *found)
{
	struct looking looking;
	struct component component;
	unsigned count = 0;
	start_looking(&looking, &file->bytes);
	while (next_component(&looking, &component)) {
		if (!is_alike(component.reading, reading))
			continue;
		*found = component;
		count++;
	}
	if (count == 0)
		return fail_place(part, " has no place: no component of ", file->name,
				  " has its letter, identity, revision and extended number");
	if (count > 1)
		return fail_place(part, " could go to several places: ", file->name, " has more than one such component");
	if (found->length != part->bytes.length)
		return fail_place(part, " is not as long as its component in ", file->name, ", so nothing is joined");
	return true;
}

/* A component in its new place: what stood there, and the base of what does now. */
struct laid {
	struct component found;
	uint64_t base;
};

/* A component laid over its place, which none of so many before it has; false after a message. */
static bool lay_part(const struct named *file, struct bytes *whole, const struct named *part, struct laid *laid,
		     size_t before)
{
	uint8_t reading[PAJURENDA_READ_BYTES] = { 0 };
	struct component *found = &laid[before].found;
	const uint32_t number = pajurenda_read(part->bytes.at, part->bytes.length, reading, sizeof reading);
	if (number != PAJURENDA_ACCEPTED) {
		(void)refuse_image(number, pajurenda_field(reading, PAJURENDA_READ_INDEX), part);
		return false;
	}
	if (!find_place(file, part, reading, found))
		return false;
	for (size_t i = 0; i < before; i++)
		if (laid[i].found.place == found->place)
			return fail_place(part, " goes where another component of this call is, in ", file->name, "");
	laid[before].base = pajurenda_field(reading, PAJURENDA_READ_BASE);
	memcpy(whole->at + found->place, part->bytes.at, part->bytes.length);
	return true;
}

/* Every component over the copy; false after a message. */
static bool lay_parts(const struct named *file, struct bytes *whole, char **word, struct laid *laid, size_t count)
{
	bool all = true;
	for (size_t i = 0; all && i < count; i++) {
		struct named part = { .name = word[i] };
		all = load(part.name, &part.bytes) && lay_part(file, whole, &part, laid, i);
		free(part.bytes.at);
	}
	return all;
}

/* Where each went, and the base before and after. */
static void show_laid(char **word, const struct laid *laid, size_t count)
{
	for (size_t i = 0; i < count; i++) {
		const struct component *found = &laid[i].found;
		printf("component %c at %" PRIu64 " length %" PRIu64 " base 0x%08" PRIX64 " -> 0x%08" PRIX64 " ",
		       letter_of(found), found->place, found->length,
		       pajurenda_field(found->reading, PAJURENDA_READ_BASE), laid[i].base);
		put_name(stdout, word[i]);
		putchar('\n');
	}
}

/* The same as a document, with the digest of what was written; the words are FILE, the components, and OUT, the last. */
static void write_laid(char **word, size_t last, const struct laid *laid, const struct bytes *whole)
{
	char digits[DIGEST_DIGITS + 1];
	begin_json("join");
	json_text("file", word[0]);
	json_text("out", word[last]);
	json_answer(PAJURENDA_ACCEPTED, 0);
	json_number("length", whole->length);
	json_text("sha256", find_digest(whole, digits) ? digits : NULL);
	fputs(",\n  \"components\": [", stdout);
	for (size_t i = 1; i < last; i++) {
		const struct component *found = &laid[i - 1].found;
		printf("%s\n    {\"file\": ", i == 1 ? "" : ",");
		put_json_text(stdout, word[i]);
		printf(", \"component\": \"%c\", \"place\": %" PRIu64 ", \"length\": %" PRIu64 ", \"replaces_base\": \"0x%08" PRIX64
		       "\", \"base\": \"0x%08" PRIX64 "\"}", letter_of(found), found->place, found->length,
		       pajurenda_field(found->reading, PAJURENDA_READ_BASE), laid[i - 1].base);
	}
	fputs("\n  ]", stdout);
	end_json();
}

/* OUT is none of the files that are read, and nothing stands there; false after a message. */
static bool is_out_free(char **word, size_t last)
{
	for (size_t i = 0; i < last; i++)
		if (is_same_file(word[i], word[last])) {
			fail_lost("join", i == 0 ? "FILE" : "a COMPONENT");
			return false;
		}
	return is_free(word[last]);
}

/* The loaded file with its components, saved. */
static enum status join_to(const struct named *file, char **word, size_t last)
{
	struct bytes whole = { .at = NULL };
	struct laid *laid = calloc(last, sizeof *laid);
	if (laid == NULL || !copy_bytes(&file->bytes, &whole)) {
		free(laid);
		return fail_no_memory(file->name);
	}
	const bool done = lay_parts(file, &whole, word + 1, laid, last - 1) && save(word[last], &whole);
	if (done && is_json())
		write_laid(word, last, laid, &whole);
	else if (done)
		show_laid(word + 1, laid, last - 1);
	free(laid);
	free(whole.at);
	return done ? FINE : FAILED;
}

/* join [--json] FILE COMPONENT.. OUT */
enum status do_join(char **word, const struct options *options)
{
	struct named file = { .name = word[0] };
	size_t last = 0;
	(void)options;
	while (word[last + 1] != NULL)
		last++;
	if (!is_out_free(word, last) || !load_whole(file.name, &file.bytes))
		return FAILED;
	const enum status status = join_to(&file, word, last);
	free(file.bytes.at);
	return status;
}
