/* read IMAGE: what the image's header says, and what is inside: its modules and the words of a move. */
#include <inttypes.h>
#include <stdio.h>
#include <stdlib.h>

#include "edition.h"
#include "files.h"
#include "inside.h"
#include "json.h"
#include "messages.h"
#include "refusals.h"
#include "show.h"
#include "volumes.h"

/* A field under its name, in decimal. */
static void show_field(const char *name, const uint8_t *answer, size_t field)
{
	printf("%s %" PRIu64 "\n", name, pajurenda_field(answer, field));
}

/* The identity's three parts, and what the last two say together. */
static void show_parts(const uint8_t *answer)
{
	const uint64_t revision = pajurenda_field(answer, PAJURENDA_READ_REVISION);
	const uint64_t extended = pajurenda_field(answer, PAJURENDA_READ_EXTENDED);

	fputs("identity ", stdout);
	show_identity(stdout, pajurenda_identity(answer));
	printf("\nrevision 0x%08" PRIX64 "\nextended 0x%04" PRIX64 "\n", revision, extended);
	fputs("version ", stdout);
	show_version_of(stdout, answer);
	putchar('\n');
}

/* The letter of the component, or that there is none. */
static void show_kind(const uint8_t *answer)
{
	static const char letter[] = "?TMSI";
	const uint64_t component = pajurenda_field(answer, PAJURENDA_READ_COMPONENT);

	if (is_older(answer))
		puts("edition 1");
	else
		printf("component %c\n", letter[component <= 4 ? component : 0]);
}

/* The facts of an accepted reading; of edition 1 those that were judged. */
static void show_reading(const struct bytes *image, const uint8_t *answer)
{
	printf("length %zu\n", image->length);
	show_kind(answer);
	show_parts(answer);
	printf("base 0x%08" PRIX64 "\n", pajurenda_field(answer, PAJURENDA_READ_BASE));
	show_field("header", answer, PAJURENDA_READ_HEADER);
	if (is_older(answer))
		return;
	show_field("patches", answer, PAJURENDA_READ_COUNT);
	show_field("end", answer, PAJURENDA_READ_END);
	printf("region c %" PRIu64 " z %" PRIu64 "\n", pajurenda_field(answer, PAJURENDA_READ_REGION),
	       pajurenda_field(answer, PAJURENDA_READ_SIZE));
	show_volumes(image);
}

/* All lines of an accepted image. */
static void show_image(const struct contents *contents, const uint8_t *answer, unsigned options)
{
	show_reading(contents->image, answer);
	if (is_older(answer))
		return;
	show_counts(contents, answer);
	if ((options & MODULES) != 0)
		show_modules(contents);
	if ((options & WORDS) != 0)
		show_words(contents, answer);
}

/* ---- for a program ---- */

/* What an edition 1 image doesn't tell. */
static void write_unjudged(void)
{
	static const char *const names[] = { "patches", "end", "region", "volumes", "modules", "words", "relocation_words" };
	for (size_t i = 0; i < sizeof names / sizeof names[0]; i++)
		json_text(names[i], NULL);
}

/* The facts of an accepted reading. */
static void write_reading(const struct bytes *image, const uint8_t *answer)
{
	static const char *const letters[] = { "?", "T", "M", "S", "I" };
	const uint64_t component = pajurenda_field(answer, PAJURENDA_READ_COMPONENT);
	json_number("length", image->length);
	json_number("edition", pajurenda_edition(answer));
	json_text("component", is_older(answer) ? NULL : letters[component <= 4 ? component : 0]);
	json_bound_parts(pajurenda_identity(answer), pajurenda_field(answer, PAJURENDA_READ_REVISION),
		   pajurenda_field(answer, PAJURENDA_READ_EXTENDED));
	fputs(",\n  \"version\": \"", stdout);
	show_version_of(stdout, answer);
	putchar('"');
	json_hex("base", 8, pajurenda_field(answer, PAJURENDA_READ_BASE));
	json_number("header", pajurenda_field(answer, PAJURENDA_READ_HEADER));
	if (is_older(answer)) {
		write_unjudged();
		return;
	}
	json_number("patches", pajurenda_field(answer, PAJURENDA_READ_COUNT));
	json_number("end", pajurenda_field(answer, PAJURENDA_READ_END));
	printf(",\n  \"region\": {\"place\": %" PRIu64 ", \"size\": %" PRIu64 "}",
	       pajurenda_field(answer, PAJURENDA_READ_REGION),
	       pajurenda_field(answer, PAJURENDA_READ_SIZE));
	write_volumes(image);
}

/* What an accepted image has inside. */
static void write_inside(const struct contents *contents, const uint8_t *answer, unsigned options)
{
	write_counts(contents, answer);
	if ((options & MODULES) != 0)
		write_modules(contents);
	if ((options & WORDS) != 0)
		write_words(contents, answer);
}

/* The whole document, of a refused image too. */
static void write_image(const struct named *image, const struct contents *contents, uint32_t number,
			const uint8_t *answer, unsigned options)
{
	begin_json("read");
	json_text("file", image->name);
	json_answer(number, pajurenda_field(answer, PAJURENDA_READ_INDEX));
	if (number == PAJURENDA_ACCEPTED) {
		write_reading(&image->bytes, answer);
		if (!is_older(answer))
			write_inside(contents, answer, options);
	}
	end_json();
}

/* ---- both ---- */

/* The reading; modules and words are asked of edition 2 alone. */
static uint32_t read_for(const struct bytes *image, uint8_t *answer, unsigned options)
{
	if ((options & (MODULES | WORDS)) != 0)
		return read_newer(image, answer);
	return pajurenda_read(image->at, image->length, answer, PAJURENDA_READ_BYTES);
}

/* The list where it is to be shown, else the counts alone; of edition 1 neither is there. */
static enum status find_contents(const struct bytes *image, const uint8_t *answer,
				 struct contents *contents, unsigned options)
{
	contents->image = image;
	if (is_older(answer))
		return FINE;
	if ((options & (MODULES | WORDS)) != 0)
		return load_contents(image, contents);
	return count_contents(image, contents) ? FINE : fail_answer();
}

/* A loaded image read and shown; nothing of it before the library's whole answer is there. */
static enum status read_image(const struct named *image, struct contents *contents, unsigned options)
{
	uint8_t answer[PAJURENDA_READ_BYTES] = { 0 };
	const bool json = (options & JSON) != 0;
	const uint32_t number = read_for(&image->bytes, answer, options);
	keep_refusals(json);
	if (number == PAJURENDA_ACCEPTED && find_contents(&image->bytes, answer, contents, options) != FINE)
		return FAILED;
	enum status status = FINE;
	if (number != PAJURENDA_ACCEPTED)
		status = refuse_image(number, pajurenda_field(answer, PAJURENDA_READ_INDEX), image);
	if (json)
		write_image(image, contents, number, answer, options);
	else if (number == PAJURENDA_ACCEPTED)
		show_image(contents, answer, options);
	return status;
}

/* read [--modules] [--words] [--json] IMAGE */
enum status do_read(char **word, const struct options *options)
{
	struct named image = { .name = word[0] };
	struct contents contents = { .image = NULL };
	if (!load(image.name, &image.bytes))
		return FAILED;
	const enum status status = read_image(&image, &contents, options->given);
	free_contents(&contents);
	free(image.bytes.at);
	return status;
}
