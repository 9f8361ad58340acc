/* hex export IMAGE OUT, hex import TEXT OUT: an image as Intel HEX, and back; the library judges both. */
#include <inttypes.h>
#include <stdbool.h>
#include <stdio.h>
#include <stdlib.h>

#include "files.h"
#include "hex_text.h"
#include "json.h"
#include "messages.h"
#include "numbers.h"
#include "pajurenda.h"
#include "refusals.h"

/* ---- what is shown ---- */

/* What was asked, by the files' names, and what came of it; of a refusal number and name alone. */
struct told {
	const char *command, *in, *out;
	bool json;
	uint64_t base, length;
};

/* One document, of a refusal too. */
static void write_told(const struct told *told, uint32_t number)
{
	begin_json(told->command);
	json_text("in", told->in);
	json_text("out", told->out);
	json_number("number", number);
	json_text("name", pajurenda_name(number));
	json_refusal(number);
	if (number == PAJURENDA_ACCEPTED) {
		json_hex("base", 8, told->base);
		json_number("length", told->length);
	}
	end_json();
}

/* The base, and how many characters or bytes were written. */
static enum status tell(const struct told *told)
{
	if (told->json)
		write_told(told, PAJURENDA_ACCEPTED);
	else
		printf("base 0x%08" PRIX64 "\nlength %" PRIu64 "\n", told->base, told->length);
	return FINE;
}

/* A refusal that has been told on standard error; where a document is wanted, its document. */
static enum status tell_refused(const struct told *told, uint32_t number)
{
	if (told->json)
		write_told(told, number);
	return FAILED;
}

/* ---- export ---- */

/* A refused export: the bytes' length, or the base that was asked for. */
static enum status refuse_export(uint32_t number, const struct named *image, const struct told *told)
{
	if (number == PAJURENDA_SHORT)
		return fail_no_memory(image->name);
	if (number != PAJURENDA_LENGTH && number != PAJURENDA_NEWBASE)
		return fail_answer();
	(void)(number == PAJURENDA_LENGTH ? refuse_image(number, 0, image) : refuse_text_base(image, told->base));
	return tell_refused(told, number);
}

/* The loaded bytes as text, saved. */
static enum status save_export(const struct named *image, struct told *told)
{
	struct bytes text;
	const uint32_t number = make_hex(&image->bytes, told->base, &text);
	enum status status = FAILED;
	told->length = text.length;
	if (number != PAJURENDA_ACCEPTED)
		status = refuse_export(number, image, told);
	else if (save(told->out, &text))
		status = tell(told);
	free(text.at);
	return status;
}

/* At the image's own base, for which it must read. */
static enum status export_there(const struct named *image, struct told *told)
{
	uint8_t reading[PAJURENDA_READ_BYTES] = { 0 };
	const uint32_t number =
		pajurenda_read(image->bytes.at, image->bytes.length, reading, sizeof reading);
	if (number != PAJURENDA_ACCEPTED) {
		(void)refuse_image(number, pajurenda_field(reading, PAJURENDA_READ_INDEX), image);
		return tell_refused(told, number);
	}
	told->base = pajurenda_field(reading, PAJURENDA_READ_BASE);
	return save_export(image, told);
}

/* hex export [--base BASE] [--json] IMAGE OUT */
enum status do_hex_export(char **word, const struct options *options)
{
	struct named image = { .name = word[0] };
	struct base base = { .keep = true };
	struct told told = { .command = "hex export", .in = word[0], .out = word[1],
			     .json = (options->given & JSON) != 0 };
	keep_refusals(told.json);
	if (options->base != NULL && !take_base("hex export", options->base, &base))
		return FAILED;
	if (is_same_file(image.name, told.out))
		return fail_lost("hex export", "IMAGE");
	if (!is_free(told.out) || !load(image.name, &image.bytes))
		return FAILED;
	told.base = base.value;
	const enum status status = base.keep ? export_there(&image, &told) : save_export(&image, &told);
	free(image.bytes.at);
	return status;
}

/* ---- import ---- */

/* A text that no export writes, with its length; one with more bytes than any image is none. */
static enum status refuse_import(uint32_t number, const struct named *text, const struct told *told)
{
	if (number != PAJURENDA_TEXT)
		return fail_answer();
	begin_refusal(number, text->name);
	say_rule(number);
	if (text->bytes.length > PAJURENDA_MOST_HEX)
		fprintf(saying(), "it has more than %d characters", PAJURENDA_MOST_HEX);
	else
		fprintf(saying(), "it has %zu characters", text->bytes.length);
	(void)end_refusal();
	return tell_refused(told, number);
}

/* The bytes of the loaded text, saved. */
static enum status save_import(const struct named *text, struct bytes *image, struct told *told)
{
	uint8_t answer[PAJURENDA_IMPORT_BYTES] = { 0 };
	const uint32_t number =
		pajurenda_hex_import(text->bytes.at, text->bytes.length, image->at, PAJURENDA_MOST_IMAGE,
				     answer, sizeof answer);
	if (number != PAJURENDA_ACCEPTED)
		return refuse_import(number, text, told);
	told->base = pajurenda_field(answer, PAJURENDA_IMPORT_BASE);
	told->length = pajurenda_field(answer, PAJURENDA_IMPORT_LENGTH);
	image->length = (size_t)told->length;
	return save(told->out, image) ? tell(told) : FAILED;
}

/* hex import [--json] TEXT OUT */
enum status do_hex_import(char **word, const struct options *options)
{
	struct named text = { .name = word[0] };
	struct told told = { .command = "hex import", .in = word[0], .out = word[1],
			     .json = (options->given & JSON) != 0 };
	keep_refusals(told.json);
	if (is_same_file(text.name, told.out))
		return fail_lost("hex import", "TEXT");
	if (!is_free(told.out) || !load_until(text.name, &text.bytes, (size_t)PAJURENDA_MOST_HEX + 1, NULL))
		return FAILED;
	struct bytes image = { .at = malloc(PAJURENDA_MOST_IMAGE) };
	const enum status status = image.at == NULL ? fail_no_memory(text.name)
						    : save_import(&text, &image, &told);
	free(image.at);
	free(text.bytes.at);
	return status;
}
