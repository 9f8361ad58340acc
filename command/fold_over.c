/* What a later sheet of a pile sets over an earlier one: which bytes, by offset and by name. Which byte stands at the end is the
   library's answer, the folded sheet; this says where it came from. */
#include <inttypes.h>
#include <stdio.h>
#include <stdlib.h>

#include "folding.h"
#include "json.h"
#include "json_names.h"
#include "letters.h"
#include "messages.h"
#include "pajurenda.h"
#include "show.h"

/* How many bytes of a value stand in a line. */
#define MOST_SHOWN ((size_t)16)

/* The largest configuration region. */
#define MOST_REGION ((uint64_t)65536)

/* A byte of the folded sheet as far as the sheets were followed: which of them set it last, counted from 1, and to what. */
struct held {
	size_t sheet;
	uint8_t byte;
};

/* An entry of a sheet that the library has taken. */
struct piece {
	uint64_t offset, length, body;
};

static struct piece piece_at(const struct bytes *sheet, uint64_t index)
{
	const uint64_t at = PAJURENDA_EMPTY_SHEET + PAJURENDA_ENTRY_BYTES * index;
	return (struct piece){ .offset = number_at(sheet, at, 4), .length = number_at(sheet, at + 4, 2),
			       .body = number_at(sheet, at + 6, 2) };
}

/* Where in the folded sheet the bytes of a piece stand: in one entry, as entries that touch are joined. False where they don't. */
static bool find_body(const struct bytes *folded, const struct piece *piece, uint64_t *body)
{
	const uint64_t count = number_at(folded, 12, 2);
	for (uint64_t i = 0; i < count; i++) {
		const struct piece whole = piece_at(folded, i);
		*body = whole.body + (piece->offset - whole.offset);
		if (whole.offset <= piece->offset &&
		    piece->offset + piece->length <= whole.offset + whole.length)
			return has_bytes(folded, *body, piece->length);
	}
	return false;
}

/* ---- one range ---- */

/* The names of the settings that a range has a byte of; none lies past the largest region. */
static void put_over_names(const struct folding *folding, uint64_t offset, uint64_t length)
{
	const struct names *names = names_of(&folding->naming);
	const uint64_t end = offset + length < MOST_REGION ? offset + length : MOST_REGION;
	const struct label *label;
	uint64_t at = offset;
	while ((label = next_name(names, &at, end)) != NULL) {
		fputs(", ", stdout);
		names_put_label(stdout, label);
	}
}

/* An object of a document: both sheets, both values whole, and the names. */
static void write_range(const struct folding *folding, const struct held *held, size_t sheet, uint64_t offset,
			const uint8_t *now, size_t length, const char *before)
{
	static uint8_t was[PAJURENDA_MOST_SHEET];
	for (size_t i = 0; i < length; i++)
		was[i] = held[i].byte;
	const struct change change = { .offset = offset, .length = length, .old = was, .new = now };
	printf("%s\n    {\"offset\": %" PRIu64 ", \"length\": %zu, \"replaces_sheet\": %zu, \"replaces\": ", before, offset,
	       length, held->sheet);
	json_bytes(was, length);
	printf(", \"sheet\": %zu, \"bytes\": ", sheet);
	json_bytes(now, length);
	json_names(names_of(&folding->naming), &change, "replaces", "bytes");
	putchar('}');
}

/* 0x0028: sheet 1 02 00 -> sheet 3 01 00, and the names. */
static void show_range(const struct folding *folding, const struct held *held, size_t sheet, uint64_t offset,
		       const uint8_t *now, size_t length)
{
	uint8_t was[MOST_SHOWN];
	const size_t shown = length < MOST_SHOWN ? length : MOST_SHOWN;
	for (size_t i = 0; i < shown; i++)
		was[i] = held[i].byte;
	show_offset(stdout, offset);
	printf(": sheet %zu ", held->sheet);
	show_apart(stdout, was, shown);
	fputs(length > shown ? " .." : "", stdout);
	printf(" -> sheet %zu ", sheet);
	show_apart(stdout, now, shown);
	fputs(length > shown ? " .." : "", stdout);
	put_over_names(folding, offset, length);
	putchar('\n');
}

/* ---- all of them ---- */

/* What a walk over the sheets keeps: what was set so far, and how many bytes were set over. */
struct walk {
	struct held *held;
	uint64_t over;
	bool show;
	size_t shown; /* how many ranges */
};

/* One entry: each range of it that an earlier sheet set, and then it is what was set. */
static void follow_piece(const struct folding *folding, struct walk *walk, size_t sheet,
			 const struct piece *piece, uint64_t body)
{
	const uint8_t *now = folding->sheets[sheet - 1].bytes.at + piece->body;
	struct held *held = walk->held + body;
	for (size_t i = 0, end; i < piece->length; i = end) {
		for (end = i + 1; end < piece->length && held[end].sheet == held[i].sheet;)
			end++;
		if (held[i].sheet == 0)
			continue;
		walk->over += end - i;
		if (walk->show && is_json())
			write_range(folding, held + i, sheet, piece->offset + i, now + i, end - i,
				    walk->shown++ == 0 ? "" : ",");
		else if (walk->show)
			show_range(folding, held + i, sheet, piece->offset + i, now + i, end - i);
	}
	for (size_t i = 0; i < piece->length; i++)
		held[i] = (struct held){ .sheet = sheet, .byte = now[i] };
}

/* Every sheet in its order; false where the folded sheet can't be the library's. */
static bool follow(const struct folding *folding, struct walk *walk)
{
	for (size_t i = 0; i < folding->count; i++) {
		const struct bytes *sheet = &folding->sheets[i].bytes;
		const uint64_t count = number_at(sheet, 12, 2);
		for (uint64_t k = 0; k < count; k++) {
			const struct piece piece = piece_at(sheet, k);
			uint64_t body = 0;
			if (!find_body(&folding->folded, &piece, &body) || !has_bytes(sheet, piece.body, piece.length))
				return false;
			follow_piece(folding, walk, i + 1, &piece, body);
		}
	}
	return true;
}

/* The count, and each range, as lines or as members. */
static void show_all(const struct folding *folding, uint64_t over, struct walk *show)
{
	if (!is_json())
		printf("overwritten %" PRIu64 "\n", over);
	else
		printf(",\n  \"overwritten\": %" PRIu64 ",\n  \"over\": [", over);
	(void)follow(folding, show);
	if (is_json())
		printf("%s]", show->shown == 0 ? "" : "\n  ");
}

/* How many bytes were set over, and each range of them. */
enum status show_over(const struct folding *folding)
{
	struct walk count = { .held = calloc(PAJURENDA_MOST_SHEET, sizeof *count.held) };
	struct walk show = { .held = calloc(PAJURENDA_MOST_SHEET, sizeof *show.held), .show = true };
	enum status status = FINE;
	if (count.held == NULL || show.held == NULL)
		status = fail_no_memory("sheet fold");
	else if (!follow(folding, &count))
		status = fail_answer();
	else
		show_all(folding, count.over, &show);
	free(count.held);
	free(show.held);
	return status;
}
