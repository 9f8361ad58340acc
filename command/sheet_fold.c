/* sheet fold SHEET.. OUT: old sheets as one, which sets what they set one after another. */
#include <inttypes.h>
#include <stdio.h>
#include <stdlib.h>
#include <string.h>

#include "edition.h"
#include "files.h"
#include "folding.h"
#include "json.h"
#include "letters.h"
#include "messages.h"
#include "sheets.h"
#include "signs.h"

/* The four bytes before each sheet of a pile, its length. */
#define LENGTH_BYTES ((size_t)4)

/* ---- the pile ---- */

/* One sheet more, after its length. */
static void lay_on(struct bytes *pile, const struct bytes *sheet)
{
	put_number(pile->at + pile->length, LENGTH_BYTES, sheet->length);
	memcpy(pile->at + pile->length + LENGTH_BYTES, sheet->at, sheet->length);
	pile->length += LENGTH_BYTES + sheet->length;
}

/* The library's answer for the first sheet and, where first isn't 0, for those from there on up to count; the sheet it makes
   of them is kept. */
uint32_t fold_some(struct folding *folding, size_t first, size_t count)
{
	uint8_t answer[PAJURENDA_FOLD_BYTES] = { 0 };
	folding->pile.length = 0;
	if (first != 0)
		lay_on(&folding->pile, &folding->sheets[0].bytes);
	for (size_t i = first; i < count; i++)
		lay_on(&folding->pile, &folding->sheets[i].bytes);
	const uint32_t number = pajurenda_fold(folding->pile.at, folding->pile.length, folding->folded.at,
					       PAJURENDA_MOST_SHEET, answer, sizeof answer);
	folding->folded.length = (size_t)pajurenda_field(answer, PAJURENDA_FOLD_LENGTH);
	return number;
}

/* ---- the files ---- */

/* Every sheet, and memory for the pile of all and for the sheet that is made of them; false after a message. */
static bool load_sheets(struct folding *folding, char **word)
{
	size_t length = 0;
	folding->sheets = calloc(folding->count, sizeof *folding->sheets);
	for (size_t i = 0; folding->sheets != NULL && i < folding->count; i++) {
		struct named *sheet = &folding->sheets[i];
		sheet->name = word[i];
		if (!load(sheet->name, &sheet->bytes))
			return false;
		length += LENGTH_BYTES + sheet->bytes.length;
	}
	folding->pile.at = malloc(length);
	folding->folded.at = malloc(PAJURENDA_MOST_SHEET);
	if (folding->sheets != NULL && folding->pile.at != NULL && folding->folded.at != NULL)
		return true;
	fail_no_memory(word[0]);
	return false;
}

/* The names for the image that is given, which must read; false after a message. */
static bool load_names(struct folding *folding, const struct options *options)
{
	uint8_t reading[PAJURENDA_READ_BYTES] = { 0 };
	struct bytes *image = &folding->image.bytes;
	folding->image.name = options->image;
	if (options->image == NULL)
		return true;
	if (!load(options->image, image))
		return false;
	const uint32_t number = read_newer(image, reading);
	if (number == PAJURENDA_ACCEPTED)
		return load_naming(options, &folding->image, reading, &folding->naming);
	(void)refuse_image(number, pajurenda_field(reading, PAJURENDA_READ_INDEX), &folding->image);
	return false;
}

/* All memory back. */
static void end_folding(struct folding *folding)
{
	end_naming(&folding->naming);
	for (size_t i = 0; folding->sheets != NULL && i < folding->count; i++)
		free(folding->sheets[i].bytes.at);
	free(folding->sheets);
	free(folding->pile.at);
	free(folding->folded.at);
	free(folding->image.bytes.at);
}

/* ---- folded ---- */

/* How many bytes are set. */
static uint64_t count_set(const struct folding *folding)
{
	const uint64_t entries = number_at(&folding->folded, 12, 2);
	return folding->folded.length - PAJURENDA_EMPTY_SHEET - PAJURENDA_ENTRY_BYTES * entries;
}

/* In a document: that, and the sheets in their order. */
static void write_folded(const struct folding *folding)
{
	json_number("bytes", count_set(folding));
	fputs(",\n  \"sheets\": [", stdout);
	for (size_t i = 0; i < folding->count; i++) {
		fputs(i == 0 ? "\n    {\"file\": " : ",\n    {\"file\": ", stdout);
		put_json_text(stdout, folding->sheets[i].name);
		printf(", \"entries\": %" PRIu64 "}", number_at(&folding->sheets[i].bytes, 12, 2));
	}
	fputs("\n  ]", stdout);
}

/* The sheets by their numbers, and how many bytes are set. */
static void show_folded(const struct folding *folding)
{
	printf("bytes %" PRIu64 "\n", count_set(folding));
	for (size_t i = 0; i < folding->count; i++) {
		printf("sheet %zu entries %" PRIu64 " ", i + 1,
		       number_at(&folding->sheets[i].bytes, 12, 2));
		put_name(stdout, folding->sheets[i].name);
		putchar('\n');
	}
}

/* The loaded sheets as one, saved and shown. */
static enum status save_folded(struct folding *folding, const char *out)
{
	const uint32_t number = fold_some(folding, 0, folding->count);
	if (number != PAJURENDA_ACCEPTED)
		return refuse_fold(folding, number);
	if (save_open_sheet(out, &folding->folded, &folding->naming, NULL) != FINE)
		return FAILED;
	if (!is_json()) {
		show_folded(folding);
		return show_over(folding);
	}
	write_folded(folding);
	const enum status status = show_over(folding);
	end_json();
	return status;
}

/* sheet fold [--names FILE --image IMAGE] SHEET.. OUT */
enum status do_sheet_fold(char **word, const struct options *options)
{
	struct folding folding = { .count = 0 };
	while (word[folding.count + 1] != NULL)
		folding.count++;
	const char *out = word[folding.count];
	if ((options->names == NULL) != (options->image == NULL))
		return fail_usage("sheet fold", "--names goes with --image: names are held against its settings",
				  "", "");
	for (size_t i = 0; i < folding.count; i++)
		if (is_same_file(word[i], out))
			return fail_lost("sheet fold", "SHEET");
	if (options->image != NULL && is_same_file(options->image, out))
		return fail_lost("sheet fold", "IMAGE");
	if (options->names != NULL && is_same_file(options->names, out))
		return fail_lost("sheet fold", "the file of names");
	if (!is_free(out))
		return FAILED;
	const enum status status =
		load_sheets(&folding, word) && load_names(&folding, options) ? save_folded(&folding, out) : FAILED;
	end_folding(&folding);
	return status;
}
