/* Intel HEX both ways, by the linked library and by the second reader: the boundaries of length, base and room, every change of one
   character and every cut of a small text, and drawn bytes and texts. Every field, every lent byte and the bytes around them are held
   against each other. */
#include "fields.h"

#include <inttypes.h>
#include <stdbool.h>
#include <stdio.h>
#include <stdlib.h>
#include <string.h>

#include "held.h"
#include "hex_texts.h"
#include "images.h"
#include "../second/hex.h"

#define MOST ((size_t)PAJURENDA_MOST_IMAGE)
#define MOST_TEXT ((size_t)PAJURENDA_MOST_HEX)

/* A run of so many draws must have had every number. */
#define LONG 500

enum call { EXPORT, IMPORT, CALLS };

static const char *const call_name[CALLS] = { "export", "import" };
static uint64_t seen[CALLS][101];
static uint64_t changes, cuts;

static uint8_t *bytes, *text, *wanted;
static struct lent lent_in, lent_out;

/* ---- one call on both sides ---- */

/* What both sides must leave: the number, the answer's fields and the output's bytes. */
static void settle(enum call call, uint32_t number, uint64_t second, const uint64_t *fields, size_t count)
{
	settle_answer(number, second, fields, count);
	if (!same_lent(&lent_out, "output", wanted))
		differ("the output");
	seen[call][number]++;
}

/* So many bytes at a base into a room of so many. */
static uint32_t same_export(size_t length, uint64_t base, size_t room, bool may_be_short)
{
	snprintf(whereabouts, sizeof whereabouts, "export of %zu bytes at 0x%" PRIX64 ", room %zu\n", length, base, room);
	lend(&lent_in, bytes, length);
	memset(wanted, 0x3C, room);
	lend(&lent_out, wanted, room);
	const bool short_answer = lend_answer(2, may_be_short) < 16;
	const uint32_t number = pajurenda_hex_export(lent_in.at, length, base, lent_out.at, room, lent_answer.at, lent_answer.length);
	struct second_exported r = { .number = PAJURENDA_SHORT };
	if (!short_answer)
		r = second_export(bytes, length, base, wanted, room);
	const uint64_t fields[] = { r.number, r.length };
	settle(EXPORT, number, r.number, fields, 2);
	if (!same_lent(&lent_in, "bytes", bytes))
		differ("the input");
	return number;
}

/* A text of so many characters into a room of so many. */
static uint32_t same_import(const uint8_t *from, size_t length, size_t room, bool may_be_short)
{
	snprintf(whereabouts, sizeof whereabouts, "import of %zu characters, room %zu\n", length, room);
	lend(&lent_in, from, length);
	memset(wanted, 0x3C, room);
	lend(&lent_out, wanted, room);
	const bool short_answer = lend_answer(3, may_be_short) < 24;
	const uint32_t number = pajurenda_hex_import(lent_in.at, length, lent_out.at, room, lent_answer.at, lent_answer.length);
	struct second_imported r = { .number = PAJURENDA_SHORT };
	if (!short_answer)
		r = second_import(from, length, wanted, room);
	const uint64_t fields[] = { r.number, r.base, r.length };
	settle(IMPORT, number, r.number, fields, 3);
	if (!same_lent(&lent_in, "text", from))
		differ("the input");
	return number;
}

/* ---- the boundaries ---- */

/* The same with the number that it must have. */
static void must(uint32_t number, uint32_t wanted_number)
{
	if (number == wanted_number)
		return;
	printf("%" PRIu32 ", not %" PRIu32 "\n", number, wanted_number);
	differ("the number that the case must have");
}

/* Bytes at a legal base, with room to spare, exactly enough, and one too little; then back from the text likewise. */
static void there_and_back(size_t length, uint64_t base)
{
	const struct second_exported whole = second_export(bytes, length, base, text, MOST_TEXT);
	if (whole.number != 0)
		differ("a case that isn't one");
	must(same_export(length, base, (size_t)whole.length, false), 0);
	must(same_export(length, base, (size_t)whole.length - 1, false), PAJURENDA_SPACE);
	must(same_import(text, (size_t)whole.length, length, false), 0);
	must(same_import(text, (size_t)whole.length, length - 1, false), PAJURENDA_SPACE);
	if (length < 100000) {
		must(same_export(length, base, (size_t)whole.length + 77, false), 0);
		must(same_export(length, base, 0, false), PAJURENDA_SPACE);
		must(same_import(text, (size_t)whole.length, length + 77, false), 0);
		must(same_import(text, (size_t)whole.length, 0, false), PAJURENDA_SPACE);
	}
}

/* Every length of the request at every base of it; the last that is legal, and those that aren't. */
static void try_boundaries(void)
{
	static const size_t lengths[] = { 72, 73, 80, 87, 88, 89, 65535, 65536, 65537 };
	static const uint64_t bases[] = { 0, 0x1000, 0xF000, 0xFF000, 0xFFF000, 0xFFF0000, 0xFFFE0000 };
	static const uint64_t illegal[] = { 1, 0x800, 0x1001, 0xFFFFF001, 0x100000000, 0x100001000, 0xFFFFFFFFFFFFF000, UINT64_MAX };
	for (size_t i = 0; i < sizeof lengths / sizeof lengths[0]; i++) {
		const uint64_t last = (0x100000000 - lengths[i]) / 4096 * 4096;
		for (size_t k = 0; k < sizeof bases / sizeof bases[0]; k++)
			if (bases[k] <= last)
				there_and_back(lengths[i], bases[k]);
		there_and_back(lengths[i], last);
		must(same_export(lengths[i], last + 4096, MOST_TEXT / 64, false), PAJURENDA_NEWBASE);
		for (size_t k = 0; k < sizeof illegal / sizeof illegal[0]; k++)
			must(same_export(lengths[i], illegal[k], k % 2 == 0 ? MOST_TEXT / 64 : 0, false), PAJURENDA_NEWBASE);
	}
	for (size_t length = 0; length < 72; length++)
		must(same_export(length, length % 3, length % 2 * 4096, false), PAJURENDA_LENGTH);
	there_and_back(MOST, 0x1000);
	there_and_back(MOST, 0xFF000000);
	must(same_export(MOST, 0xFF001000, 64, false), PAJURENDA_NEWBASE);
	must(same_export(MOST + 1, 0, 64, false), PAJURENDA_LENGTH);
}

/* Every other character at every place of a small text, and every cut of it. */
static void try_changes(void)
{
	const size_t length = (size_t)second_export(bytes, 72, 0xABCDE000, text, MOST_TEXT).length;
	for (size_t at = 0; at < length; at++) {
		const uint8_t kept = text[at];
		for (unsigned other = 1; other < 256; other++, changes++) {
			text[at] = (uint8_t)(kept ^ other);
			must(same_import(text, length, 72, false), PAJURENDA_TEXT);
		}
		text[at] = kept;
		must(same_import(text, at, 72, false), PAJURENDA_TEXT);
		cuts++;
	}
	must(same_import(text, length, 72, false), PAJURENDA_ACCEPTED);
}

/* ---- drawn ---- */

/* Mostly short; sometimes around a 64 KiB line. */
static size_t draw_length(void)
{
	const uint64_t kind = below(20);
	return (size_t)(kind == 0 ? 65000 + below(2000) : kind == 1 ? below(80) : kind < 12 ? 60 + below(60) : 60 + below(6000));
}

/* Mostly legal, often just before a 64 KiB line or at the end of the addresses. */
static uint64_t draw_base(size_t length)
{
	switch (below(8)) {
	case 0: return below(0x100000) * 0x1000 + 0xF000;
	case 1: return (0x100000000 - length) / 4096 * 4096 + below(2) * 4096;
	case 2: return below(0x200000000);
	case 3: return any_number();
	case 4: return below(0x10000) * 0x10000 + 0xF000;
	default: return below(0xFF000) * 0x1000;
	}
}

static void draw_export(void)
{
	const size_t length = draw_length();
	const uint64_t base = draw_base(length);
	const size_t full = (size_t)second_export(bytes, length, base, text, MOST_TEXT).length;
	const uint64_t kind = below(6);
	same_export(length, base, kind == 0 && full > 0 ? (size_t)below(full) : kind == 1 ? full + (size_t)below(100) : full, true);
}

/* A text as the export writes it, or records of other forms, or damaged. */
static void draw_import(void)
{
	const size_t length = draw_length();
	const uint64_t base = draw_base(length), kind = below(4);
	size_t whole = (size_t)second_export(bytes, length, base, text, MOST_TEXT).length;
	if (kind == 0 || whole == 0)
		whole = draw_records(text, bytes, length, base);
	if (kind == 1)
		whole = damage_text(text, whole);
	if (kind == 2)
		whole = whole < 5000 && below(2) == 0 ? (fill_bytes(text, whole), whole) : whole;
	same_import(text, whole, below(5) == 0 ? (size_t)below(length + 1) : length + (size_t)below(20), true);
}

int main(int count, char **words)
{
	if (count != 3) {
		fputs("usage: compare_hex SEED DRAWS\n", stderr);
		return 2;
	}
	numbers_from(number_of(words[1]));
	const uint64_t draws = number_of(words[2]);
	bytes = memory(malloc(MOST + 1));
	text = memory(malloc(MOST_TEXT));
	wanted = memory(malloc(MOST_TEXT));
	open_lent(&lent_in, (MOST_TEXT / 65536 + 1) * 65536);
	open_lent(&lent_out, (MOST_TEXT / 65536 + 1) * 65536);
	open_answer();
	watch_faults();
	fill_bytes(bytes, MOST + 1);
	try_boundaries();
	try_changes();
	for (uint64_t left = draws; left > 0; left--) {
		fill_bytes(bytes, 96);
		draw_export();
		draw_import();
	}
	for (int call = 0; call < CALLS; call++)
		show_seen(call_name[call], seen[call]);
	if (draws >= LONG && (seen[EXPORT][100] == 0 || seen[IMPORT][100] == 0))
		differ("a number that never came");
	printf("Intel HEX: %" PRIu64 " changes of one character and %" PRIu64 " cuts of a text, all 50; none different\n", changes, cuts);
	return 0;
}
