/* Names and values in JSON: the file of names as a member, and the names that a change touches. */
#include "json_names.h"

#include <inttypes.h>

#include "json.h"
#include "signs.h"

/* A member of an object in a line, a text or null. */
static void put_member(const char *name, const char *text)
{
	printf(", \"%s\": ", name);
	if (text == NULL)
		fputs("null", stdout);
	else
		put_json_text(stdout, text);
}

/* A name whose default isn't what the image has. */
static void put_different(const struct naming *naming, const struct label *label, const char *before)
{
	printf("%s\n      {\"name\": ", before);
	put_json_text(stdout, label->name);
	printf(", \"offset\": %" PRIu32 ", \"default\": ", label->offset);
	json_bytes(label->given, label->length);
	fputs(", \"found\": ", stdout);
	json_bytes(found_of(naming, label), label->length);
	putchar('}');
}

/* The file of names: how many there are, what was passed over, and the defaults that differ; null without
   one. */
void json_naming(const struct naming *naming)
{
	const struct names_differing *differing = &naming->differing;
	fputs(",\n  \"names\": ", stdout);
	if (naming->file.name == NULL) {
		fputs("null", stdout);
		return;
	}
	fputs("{\"file\": ", stdout);
	put_json_text(stdout, naming->file.name);
	printf(", \"count\": %zu, \"passed\": %zu, \"compared\": %zu, \"differ\": %zu, \"first\": [",
	       naming->names.count, naming->names.passed, differing->compared, differing->differ);
	for (size_t i = 0; i < FIRST_DIFFERENT && i < differing->differ; i++)
		put_different(naming, differing->first[i], i == 0 ? "" : ",");
	fputs(differing->differ == 0 ? "]}" : "\n    ]}", stdout);
}

/* Both bytes of a name that lies within the change, and the choices' words for them; null where it lies in
   part outside. */
static void put_values(const struct label *label, const struct change *change, const char *old,
		       const char *new)
{
	const uint8_t *bytes[2] = { change->old, change->new };
	const char *member[2] = { old, new };
	const bool inside = label->offset >= change->offset &&
			    label->offset + (uint64_t)label->length <= change->offset + change->length;
	for (size_t i = 0; i < 2; i++) {
		const uint8_t *at = inside || (change->whole && label->offset >= 32)
					    ? bytes[i] + label->offset - change->offset : NULL;
		printf(", \"%s\": ", member[i]);
		if (at == NULL)
			fputs("null", stdout);
		else
			json_bytes(at, label->length);
		printf(", \"%s_words\": ", member[i]);
		const char *words = at == NULL ? NULL : names_words(label, at);
		if (words == NULL)
			fputs("null", stdout);
		else
			put_json_text(stdout, words);
	}
}

/* A member with every name that the change touches; null without a file of names. */
void json_names(const struct names *names, const struct change *change, const char *old,
		const char *new)
{
	const char *before = "";
	const struct label *label;
	uint64_t at = change->offset;
	fputs(names == NULL ? ", \"names\": null" : ", \"names\": [", stdout);
	while ((label = next_name(names, &at, change->offset + change->length)) != NULL) {
		printf("%s{\"name\": ", before);
		put_json_text(stdout, label->name);
		put_member("title", label->title);
		printf(", \"offset\": %" PRIu32 ", \"length\": %" PRIu32, label->offset, label->length);
		put_values(label, change, old, new);
		putchar('}');
		before = ", ";
	}
	fputs(names == NULL ? "" : "]", stdout);
}
