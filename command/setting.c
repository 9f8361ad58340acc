/* setting IMAGE OFFSET LENGTH, or IMAGE NAME with names: one setting's place and bytes. */
#include <inttypes.h>
#include <stdio.h>
#include <stdlib.h>
#include <string.h>

#include "changes.h"
#include "edition.h"
#include "files.h"
#include "json.h"
#include "json_names.h"
#include "messages.h"
#include "naming.h"
#include "numbers.h"
#include "pajurenda.h"

/* Its document. */
static void write_setting(const struct named *image, const struct change *here, const struct naming *naming)
{
	begin_document();
	json_text("image", image->name);
	json_answer(PAJURENDA_ACCEPTED, 0);
	json_naming(naming);
	printf(",\n  \"setting\": {\"offset\": %" PRIu64 ", \"place\": %" PRIu64 ", \"length\": %zu, \"bytes\": ",
	       here->offset, here->place, here->length);
	json_bytes(here->old, here->length);
	json_names(names_of(naming), here, "is", "bytes");
	putchar('}');
	end_json();
}

/* The setting's offset, place, length and bytes, as the number that they are, and by name. */
static enum status show_setting(const struct named *image, const struct asked *asked,
				const struct naming *naming)
{
	struct change here;
	if (!find_change(&image->bytes, asked->offset, NULL, (size_t)asked->length, &here))
		return fail_answer();
	here.new = here.old;
	here.whole = true;
	if (is_json()) {
		write_setting(image, &here, naming);
		return FINE;
	}
	put_naming(stdout, "", naming);
	printf("offset 0x%04" PRIX64 "\nplace %" PRIu64 "\nlength %zu\nbytes", here.offset, here.place,
	       here.length);
	for (size_t i = 0; i < here.length; i++)
		printf(" %02X", (unsigned)here.old[i]);
	putchar('\n');
	if (here.length == 2 || here.length == 4 || here.length == 8) {
		put_number_of(stdout, "number ", here.old, here.length);
		putchar('\n');
	}
	show_named(names_of(naming), &here);
	return FINE;
}

/* A refusal; the reading has the index and the region's size, which this call does not give. */
static enum status refuse_asked(uint32_t number, const struct named *image, const uint8_t *reading,
				const struct asked *asked)
{
	if (number == PAJURENDA_FIELD)
		return refuse_setting(image, asked, pajurenda_field(reading, PAJURENDA_READ_SIZE));
	return refuse_image(number, pajurenda_field(reading, PAJURENDA_READ_INDEX), image);
}

/* A setting of an image, by offset and length. */
static enum status find_setting(const struct named *image, const uint8_t *reading,
				const struct asked *asked, const struct naming *naming)
{
	uint8_t answer[PAJURENDA_SETTING_BYTES] = { 0 };
	const uint32_t number =
		pajurenda_setting(image->bytes.at, image->bytes.length, asked->offset,
				  asked->length, answer, sizeof answer);
	return number == PAJURENDA_ACCEPTED ? show_setting(image, asked, naming)
					    : refuse_asked(number, image, reading, asked);
}

/* The setting that has a name; false after a message. */
static bool find_by_name(const struct naming *naming, const char *word, struct asked *asked)
{
	const struct label *label = NULL;
	const enum names_sought sought = names_called(&naming->names, word, &label);
	if (sought == NAME_FOUND) {
		asked->offset = label->offset;
		asked->length = label->length;
		return true;
	}
	fputs("pajurenda: setting: name \"", stderr);
	say_name(word);
	fputs("\" ", stderr);
	say_nearest(&naming->names, word, sought);
	return false;
}

/* Of a loaded image; the name is NULL where the setting is by its offset. */
static enum status look_up(const struct named *image, struct asked *asked, const char *name,
			   const struct options *options)
{
	uint8_t reading[PAJURENDA_READ_BYTES] = { 0 };
	struct naming naming = { .file = { .name = NULL } };
	enum status status = FAILED;
	const uint32_t number = read_newer(&image->bytes, reading);
	if (number != PAJURENDA_ACCEPTED)
		return refuse_asked(number, image, reading, asked);
	if (load_naming(options, image, reading, &naming) &&
	    (name == NULL || find_by_name(&naming, name, asked)))
		status = find_setting(image, reading, asked, &naming);
	end_naming(&naming);
	return status;
}

/* setting [--names FILE] IMAGE OFFSET LENGTH, or setting --names FILE IMAGE NAME */
enum status do_setting(char **word, const struct options *options)
{
	struct named image = { .name = word[0] };
	struct asked asked = { .index = 0 };
	const char *name = word[2] == NULL ? word[1] : NULL;
	if (name != NULL && options->names == NULL)
		return fail_usage("setting", "LENGTH is missing; a NAME alone needs --names FILE", "", "");
	if (name == NULL && (!take_number("setting", "OFFSET", word[1], &asked.offset) ||
			     !take_number("setting", "LENGTH", word[2], &asked.length)))
		return FAILED;
	if (!load(image.name, &image.bytes))
		return FAILED;
	const enum status status = look_up(&image, &asked, name, options);
	free(image.bytes.at);
	return status;
}
