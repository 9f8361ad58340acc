/* Folds by the linked library and by the second reader: every bound of 15, 16 and 29, drawn piles, whole and damaged; and piles that are
   released one by one against the folded sheet released once. Every field, every lent byte and the bytes around them are held against
   each other. */
#include "fields.h"

#include <inttypes.h>
#include <stdbool.h>
#include <stdio.h>
#include <stdlib.h>
#include <string.h>

#include "fold_piles.h"
#include "images.h"
#include "lent.h"
#include "../second/fold.h"
#include "../second/second.h"

#define MOST ((size_t)PAJURENDA_MOST_SHEET)
#define PILE_ROOM ((size_t)1 << 22)
#define OUT_ROOM ((size_t)1 << 17)
#define ANSWER_ROOM ((size_t)4096)

/* A run of so many draws must have had every number. */
#define LONG 500

static uint64_t seen[101];
static uint64_t cases, released;
static struct pile pile;
static uint8_t *wanted;
static uint8_t filled[ANSWER_ROOM], answered[ANSWER_ROOM];
static struct lent lent_pile, lent_out, lent_answer;
static struct second_folded last;

/* ---- one fold on both sides ---- */

static void differ(const char *what)
{
	printf("different: %s\n%s", what, whereabouts);
	exit(1);
}

/* The answer buffer: exactly as long as it must be, longer, or where short is drawn too short. */
static void lend_answer(bool may_be_short)
{
	const uint64_t kind = below(8);
	size_t length = PAJURENDA_FOLD_BYTES;
	if (kind == 0 && may_be_short)
		length = (size_t)below(length);
	else if (kind < 3)
		length += (size_t)below(40);
	fill_bytes(filled, length);
	memcpy(answered, filled, length);
	lend(&lent_answer, filled, length);
}

/* The pile into a room of so many; what both sides leave must be the same, and what comes out is in wanted. */
static uint32_t same_fold(size_t room, bool may_be_short)
{
	snprintf(whereabouts, sizeof whereabouts, "fold of %zu bytes, room %zu\n", pile.length, room);
	lend(&lent_pile, pile.at, pile.length);
	memset(wanted, 0x3C, room);
	lend(&lent_out, wanted, room);
	lend_answer(may_be_short);
	const uint32_t number = pajurenda_fold(lent_pile.at, pile.length, lent_out.at, room, lent_answer.at, lent_answer.length);
	last = (struct second_folded){ .number = PAJURENDA_SHORT };
	if (lent_answer.length >= PAJURENDA_FOLD_BYTES) {
		last = second_fold(pile.at, pile.length, wanted, room);
		const uint64_t fields[] = { last.number, last.length, last.count };
		put_fields(answered, fields, 3);
	}
	if (number != last.number) {
		printf("library %" PRIu32 ", second reader %" PRIu64 "\n", number, last.number);
		differ("the number");
	}
	if (!same_lent(&lent_answer, "answer", answered))
		differ("the answer");
	if (!same_lent(&lent_out, "output", wanted))
		differ("the output");
	if (!same_lent(&lent_pile, "pile", pile.at))
		differ("the pile");
	seen[number]++;
	return number;
}

/* ---- the boundaries ---- */

/* The pile's number in a room that has a sheet's length to spare. */
static void must(uint32_t number)
{
	cases++;
	const uint32_t came = same_fold(MOST + 9, false);
	if (came == number)
		return;
	printf("%" PRIu32 ", not %" PRIu32 "\n", came, number);
	differ("the number that the case must have");
}

/* An accepted pile: its room exactly, one short and none; so many entries and bytes; folded alone it is itself. */
static void must_fold(uint64_t entries, uint64_t length)
{
	must(PAJURENDA_ACCEPTED);
	if (last.count != entries || last.length != length)
		differ("the entries and the length that the case must have");
	if (same_fold((size_t)length, false) != 0 || same_fold((size_t)length - 1, false) != PAJURENDA_FOLDED ||
	    same_fold(0, false) != PAJURENDA_FOLDED || same_fold((size_t)length, false) != 0)
		differ("a room at its bound");
	put_number(pile.at, 0, 4, length);
	memcpy(pile.at + 4, wanted, (size_t)length);
	pile.length = 4 + (size_t)length;
	uint8_t *once = memory(malloc((size_t)length));
	memcpy(once, wanted, (size_t)length);
	if (same_fold((size_t)length, false) != 0 || memcmp(once, wanted, (size_t)length) != 0)
		differ("a folded sheet folded again");
	free(once);
}

/* So many runs of one byte, two apart, from an offset on, in sheets of 200 entries. */
static void add_runs(uint64_t from, uint64_t runs)
{
	for (uint64_t i = 0; i < runs; i++) {
		if (i % 200 == 0)
			begin_sheet(&pile, runs - i < 200 ? runs - i : 200);
		add_run(&pile, from + 2 * i, 1);
	}
}

/* 29: entries, bytes and both together. */
static void try_large(void)
{
	clear_pile(&pile), add_runs(32, 256), must_fold(256, 16 + 8 * 256 + 256);
	clear_pile(&pile), add_runs(32, 257), must(PAJURENDA_FOLDED);
	clear_pile(&pile), add_runs(32, 257), add_sheet(&pile, 33, 1), must_fold(256, 16 + 8 * 256 + 258);
	clear_pile(&pile), add_runs(32, 1000), add_sheet(&pile, 32, 2000), must_fold(1, 16 + 8 + 2000);
	clear_pile(&pile), add_sheet(&pile, 32, MOST - 24), must_fold(1, MOST);
	clear_pile(&pile), add_sheet(&pile, 32, MOST - 24), add_sheet(&pile, 32 + MOST - 24, 1), must(PAJURENDA_FOLDED);
	clear_pile(&pile), add_sheet(&pile, 32, MOST - 24), add_sheet(&pile, 31 + MOST - 24, 1), must_fold(1, MOST);
	clear_pile(&pile), add_sheet(&pile, 32, 40000), add_sheet(&pile, 20000, 40000), must_fold(1, 24 + 59968);
	clear_pile(&pile), add_sheet(&pile, 0, 40000), add_sheet(&pile, 40000, 40000), must(PAJURENDA_FOLDED);
	clear_pile(&pile), add_sheet(&pile, 0, 30000), add_sheet(&pile, 50000, MOST - 32 - 30000), must_fold(2, MOST);
	clear_pile(&pile), add_sheet(&pile, 0, 30000), add_sheet(&pile, 50000, MOST - 31 - 30000), must(PAJURENDA_FOLDED);
}

/* Runs that touch, overlap and undo; offsets up to the last; sheets without entries. */
static void try_places(void)
{
	clear_pile(&pile), begin_sheet(&pile, 0), must_fold(0, 16);
	clear_pile(&pile), begin_sheet(&pile, 0), begin_sheet(&pile, 0), must_fold(0, 16);
	clear_pile(&pile), add_sheet(&pile, 0, 1), must_fold(1, 25);
	clear_pile(&pile), add_sheet(&pile, 42, 2), add_sheet(&pile, 40, 2), must_fold(1, 28);
	clear_pile(&pile), add_sheet(&pile, 43, 2), add_sheet(&pile, 40, 2), must_fold(2, 36);
	clear_pile(&pile), add_sheet(&pile, 43, 2), add_sheet(&pile, 40, 2), add_sheet(&pile, 42, 1), must_fold(1, 29);
	clear_pile(&pile), add_sheet(&pile, 40, 9), add_sheet(&pile, 42, 3), add_sheet(&pile, 42, 3), must_fold(1, 33);
	clear_pile(&pile), add_sheet(&pile, 0xFFFFFFFF, 1), must_fold(1, 25);
	clear_pile(&pile), add_sheet(&pile, 0xFFFFFFFF, MOST - 24), must_fold(1, MOST);
	clear_pile(&pile), add_sheet(&pile, 0xFFFFFFFF, 3), add_sheet(&pile, 0, 1), must_fold(2, 36);
	clear_pile(&pile), add_sheet(&pile, 0xFFFFFFFF, 3), add_sheet(&pile, 0xFFFFFFFE, 1), must_fold(1, 28);
	for (uint64_t edge = 4090; edge < 4100; edge++)
		clear_pile(&pile), add_sheet(&pile, 32 + edge, 3), add_sheet(&pile, 32, 1), must_fold(2, 36);
	for (uint64_t long_run = 4093; long_run < 4100; long_run++)
		clear_pile(&pile), add_sheet(&pile, 32, long_run), add_sheet(&pile, 32 + long_run + 1, 2), must_fold(2, 32 + long_run + 2);
}

/* 15: no pile, every cut, a length of any size, left over bytes; 16: each part of the identity, and which sheet decides. */
static void try_bad(void)
{
	clear_pile(&pile), must(PAJURENDA_SHEET);
	for (size_t cut = 1; cut < 58; cut++) {
		clear_pile(&pile), add_sheet(&pile, 40, 1), add_sheet(&pile, 40, 1);
		pile.length -= cut;
		must(cut == 29 ? PAJURENDA_ACCEPTED : PAJURENDA_SHEET);
	}
	static const uint64_t lengths[] = { 0, 15, 16, 24, 26, 0x10000, 0x7FFFFFFF, 0xFFFFFFE7, 0xFFFFFFFF };
	for (size_t i = 0; i < sizeof lengths / sizeof lengths[0]; i++) {
		clear_pile(&pile), add_sheet(&pile, 40, 1), put_number(pile.at, 0, 4, lengths[i]), must(PAJURENDA_SHEET);
		clear_pile(&pile), add_sheet(&pile, 40, 1), add_sheet(&pile, 40, 1), put_number(pile.at, 29, 4, lengths[i]), must(PAJURENDA_SHEET);
	}
	for (size_t more = 1; more < 5; more++)
		clear_pile(&pile), add_sheet(&pile, 40, 1), memset(pile.at + pile.length, 0, 4), pile.length += more, must(PAJURENDA_SHEET);
	clear_pile(&pile), add_sheet(&pile, 40, 1), pile.identity ^= UINT64_C(1) << 63, add_sheet(&pile, 40, 1), must(PAJURENDA_IDENTITY);
	clear_pile(&pile), add_sheet(&pile, 40, 1), pile.identity ^= 1, add_sheet(&pile, 40, 1), must(PAJURENDA_IDENTITY);
	clear_pile(&pile), add_sheet(&pile, 40, 1), pile.revision ^= 1u << 31, add_sheet(&pile, 40, 1), must(PAJURENDA_IDENTITY);
	clear_pile(&pile), add_sheet(&pile, 40, 1), pile.extended ^= 1u << 15, add_sheet(&pile, 40, 1), must(PAJURENDA_IDENTITY);
	clear_pile(&pile), add_sheet(&pile, 40, 1), pile.extended ^= 1, add_sheet(&pile, 40, 1), must(PAJURENDA_IDENTITY);
	pile.at[pile.length++] = 0, must(PAJURENDA_IDENTITY);
	clear_pile(&pile), add_sheet(&pile, 40, 1), pile.revision ^= 1, add_sheet(&pile, 40, 1), pile.length--, must(PAJURENDA_SHEET);
	clear_pile(&pile), add_sheet(&pile, 40, 1), pile.revision ^= 1, add_runs(32, 1000), must(PAJURENDA_IDENTITY);
}

/* ---- drawn ---- */

static void draw_pile(void)
{
	static const uint64_t spans[] = { 40, 300, 5000, 70000, 0xFFFFFFFF };
	const uint64_t kind = below(16), sheets = 1 + below(12), low = below(3) == 0 ? 32 : below(0xFFFF0000);
	const uint64_t high = low + 20 + below(spans[below(5)]);
	clear_pile(&pile);
	pile.extended = below(65536);
	for (uint64_t i = 0; i < sheets; i++) {
		if (kind == 0 && below(8) == 0)
			pile.revision ^= below(2);
		draw_pile_sheet(&pile, 1 + below(below(8) == 0 ? 256 : 20), 1 + below(below(16) == 0 ? 2000 : 20), low,
				high > 0xFFFFFFFF ? 0xFFFFFFFF : high);
	}
	if (kind == 1)
		pile.at[below(pile.length)] ^= (uint8_t)(1 + below(255));
	if (kind == 2)
		pile.length -= (size_t)below(pile.length < 40 ? pile.length + 1 : 40);
	same_fold(below(8) == 0 ? (size_t)below(400) : MOST, true);
}

/* ---- released one by one, and once ---- */

static uint8_t *image, *once;
static struct plan plan;

/* A release of a sheet to a base, by the one owner of all settings. */
static uint32_t release(uint8_t *at, const uint8_t *sheet, size_t length, uint64_t base)
{
	uint8_t reading[PAJURENDA_READ_BYTES], list[PAJURENDA_RANGE_BYTES], answer[PAJURENDA_RELEASE_BYTES];
	(void)pajurenda_read(at, (size_t)plan.length, reading, sizeof reading);
	const size_t ranges = pajurenda_one_owner(reading, 1, list);
	return pajurenda_release(at, (size_t)plan.length, sheet, length, base, list, ranges, 1, answer, sizeof answer);
}

/* An image, and a pile for it: where each of it is accepted, the folded sheet is, and makes the same image. */
static void try_released(void)
{
	plan_plain(&plan);
	plan.z = 33 + below(3000);
	plan.base = 0xF0000000;
	lay_out(&plan, 65536);
	fill_bytes(image, plan.length);
	build(&plan, image);
	memcpy(once, image, (size_t)plan.length);
	clear_pile(&pile);
	pile.identity = plan.identity, pile.revision = plan.revision, pile.extended = extended_number(&plan);
	const uint64_t sheets = 1 + below(8), base = below(2) == 0 ? plan.base : below(0x1000) << 12;
	for (uint64_t i = 0; i < sheets; i++)
		draw_pile_sheet(&pile, 1 + below(12), 1 + below(9), 32, plan.z);
	if (same_fold(MOST, false) != 0)
		return;
	for (size_t at = 0; at < pile.length;) {
		const size_t length = (size_t)get_number(pile.at, at, 4);
		if (release(image, pile.at + at + 4, length, base) != 0)
			differ("a sheet that its image doesn't take");
		at += 4 + length;
	}
	if (release(once, wanted, (size_t)last.length, base) != 0 || memcmp(image, once, (size_t)plan.length) != 0)
		differ("the folded sheet's release");
	released++;
}

int main(int count, char **words)
{
	if (count != 3) {
		fputs("usage: compare_fold SEED DRAWS\n", stderr);
		return 2;
	}
	numbers_from(number_of(words[1]));
	const uint64_t draws = number_of(words[2]);
	pile = (struct pile){ .at = memory(malloc(PILE_ROOM)), .room = PILE_ROOM };
	wanted = memory(malloc(OUT_ROOM));
	image = memory(malloc(1 << 20));
	once = memory(malloc(1 << 20));
	open_lent(&lent_pile, PILE_ROOM);
	open_lent(&lent_out, OUT_ROOM);
	open_lent(&lent_answer, ANSWER_ROOM);
	watch_faults();
	try_large();
	try_places();
	try_bad();
	for (uint64_t left = draws; left > 0; left--) {
		draw_pile();
		if (left % 4 == 0)
			try_released();
	}
	show_seen("fold", seen);
	if (draws >= LONG && (seen[15] == 0 || seen[16] == 0 || seen[29] == 0 || seen[100] == 0 || released == 0))
		differ("a number that never came");
	printf("folds: %" PRIu64 " cases at the bounds, %" PRIu64 " piles also released one by one; none different\n", cases, released);
	return 0;
}
