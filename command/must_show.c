/* must show FILE IMAGE: what must be, explained against an image, as such a text again. */
#include <inttypes.h>
#include <stdio.h>
#include <stdlib.h>

#include "edition.h"
#include "files.h"
#include "json.h"
#include "json_names.h"
#include "json_sheet.h"
#include "messages.h"
#include "must.h"
#include "pajurenda.h"
#include "show.h"

/* Which image it is for, and the base. */
static void show_for(const struct must *must, const uint8_t *reading)
{
	show_bound(stdout, pajurenda_identity(reading), pajurenda_field(reading, PAJURENDA_READ_REVISION),
		   pajurenda_field(reading, PAJURENDA_READ_EXTENDED), " # version ");
	if (must->any_base)
		fputs("base any", stdout);
	else
		printf("base 0x%08" PRIX64, must->base);
	printf(" # the image is at 0x%08" PRIX64 "\n", must->makers_base);
}

/* A line of it: offset and bytes, what the image has, and in a comment the rest. */
static void show_need(const struct need *need, const struct names *names)
{
	const struct change *change = &need->change;
	show_offset(stdout, change->offset);
	putchar(' ');
	show_apart(stdout, change->new, change->length);
	fputs(" was ", stdout);
	show_apart(stdout, change->old, change->length);
	printf(" # line %zu, at %" PRIu64, need->line, change->place);
	put_number_of(stdout, ", ", change->old, change->length);
	if (count_changed(change) == 0) {
		fputs(", the image has it", stdout);
	} else {
		put_number_of(stdout, " -> ", change->new, change->length);
		fputs(", the image has it otherwise", stdout);
	}
	put_names(stdout, names, change, " -> ");
	putchar('\n');
}

/* The whole text. */
static void show_text_of(struct must *must, const struct naming *naming, const struct named *image,
			 const uint8_t *reading)
{
	put_naming(stdout, "# ", naming);
	show_for(must, reading);
	for (size_t i = 0; i < must->count && ferror(stdout) == 0; i++)
		show_need(&must->need[i], names_of(naming));
	hold_must(must, &image->bytes, must->makers_base);
	printf("# entries %zu, of which the image has %" PRIu64 "\n", must->count, count_held(must));
}

/* Its document: what is held is held of the image itself. */
static void write_document(struct must *must, const struct naming *naming, const struct named *image,
			   const uint8_t *reading)
{
	hold_must(must, &image->bytes, must->makers_base);
	begin_document();
	json_text("image", image->name);
	json_answer(PAJURENDA_ACCEPTED, 0);
	json_bound(reading);
	json_naming(naming);
	json_must(must);
	end_json();
}

/* Of a loaded image. */
static enum status explain(const char *file, const struct named *image, const struct options *options)
{
	uint8_t reading[PAJURENDA_READ_BYTES] = { 0 };
	struct naming naming = { .file = { .name = NULL } };
	struct must must = { .file = { .name = NULL } };
	enum status status = FAILED;
	const uint32_t number = read_newer(&image->bytes, reading);
	if (number != PAJURENDA_ACCEPTED)
		return refuse_image(number, pajurenda_field(reading, PAJURENDA_READ_INDEX), image);
	if (load_naming(options, image, reading, &naming) &&
	    load_must(file, image, reading, &naming, &must)) {
		if (is_json())
			write_document(&must, &naming, image, reading);
		else
			show_text_of(&must, &naming, image, reading);
		status = FINE;
	}
	end_must(&must);
	end_naming(&naming);
	return status;
}

/* must show [--names FILE] FILE IMAGE */
enum status do_must_show(char **word, const struct options *options)
{
	struct named image = { .name = word[1] };
	if (!load(image.name, &image.bytes))
		return FAILED;
	const enum status status = explain(word[0], &image, options);
	free(image.bytes.at);
	return status;
}
