/* The library's speed as a ratio to the second reader's plain C, and for the audit to memcmp: each time the best of the row's runs. */
#include "fields.h"

#include <inttypes.h>
#include <stdbool.h>
#include <stdio.h>
#include <stdlib.h>
#include <string.h>

#include "handoff_images.h"
#include "images.h"
#include "tables.h"
#include "timing.h"
#include "../second/handoff.h"
#include "../second/second.h"

#define BLOCK ((size_t)64)
#define FIELDS_SET 16
#define FIELDS_MOST 256
#define RANGES 64

const char table_name[] = "speed";

static struct plan plan;
static uint8_t *places;
static uint32_t *list;
static size_t places_count;
static uint64_t entries;
static uint8_t sheet[EMPTY_SHEET + 10 * FIELDS_SET], empty[EMPTY_SHEET];
static uint8_t large[EMPTY_SHEET + 9 * FIELDS_MOST];
static uint8_t whole[8], pieces[8 * RANGES];
static volatile uint64_t different;
static int (*const volatile whole_compare)(const void *, const void *, size_t) = memcmp;

/* The base that the image is at. */
static uint64_t present_base(void)
{
	return get_number(image, (size_t)plan.H + 28, 4);
}

static void library_move(void)
{
	refused += pajurenda_release(image, size, empty, sizeof empty, next_base(), whole, sizeof whole, 1,
				     answer, sizeof answer);
}

static void plain_move(void)
{
	refused += second_release(image, size, empty, sizeof empty, next_base(), whole, sizeof whole, 1).number;
}

static void library_set(void)
{
	refused += pajurenda_release(image, size, sheet, sizeof sheet, present_base(), whole, sizeof whole, 1,
				     answer, sizeof answer);
}

static void plain_set(void)
{
	refused += second_release(image, size, sheet, sizeof sheet, present_base(), whole, sizeof whole, 1).number;
}

static void library_owned(void)
{
	refused += pajurenda_release(image, size, large, sizeof large, present_base(), pieces, sizeof pieces, 2,
				     answer, sizeof answer);
}

static void plain_owned(void)
{
	refused += second_release(image, size, large, sizeof large, present_base(), pieces, sizeof pieces, 2).number;
}

/* The same sheet by the owner of all settings: one range in the place of 64. */
static void library_one_range(void)
{
	refused += pajurenda_release(image, size, large, sizeof large, present_base(), whole, sizeof whole, 1,
				     answer, sizeof answer);
}

static void library_audit(void)
{
	refused += pajurenda_audit(image, size, shipped, size, places, 4 * places_count,
				answer, sizeof answer);
}

static void plain_audit(void)
{
	refused += second_audit(image, size, shipped, size, list, places_count).number;
}

static void library_handoffs(void)
{
	refused += pajurenda_handoffs(image, size, answer, sizeof answer);
}

static void plain_handoffs(void)
{
	refused += second_handoffs(image, size).number;
}

/* The header's sum alone, one word a turn, as the library had it before #103. */
static void one_word_sum(void)
{
	uint64_t sum = 0;
	for (uint64_t i = 0; i < plan.h / 2; i++)
		sum += (uint64_t)image[2 * i] + 256 * (uint64_t)image[2 * i + 1];
	refused += sum % 65536;
}

/* Both buffers at once. */
static void memcmp_whole(void)
{
	different += (uint64_t)(whole_compare(image, shipped, size) != 0);
}

/* Both buffers block by block, so that a difference does not end it. */
static void memcmp_blocks(void)
{
	uint64_t blocks = 0;
	for (size_t at = 0; at < size; at += BLOCK)
		blocks += (uint64_t)(whole_compare(image + at, shipped + at, BLOCK) != 0);
	different += blocks;
}

/* ---- one row ---- */

/* One row of the table; the third work, where there is one, is memcmp unless the name says another. */
static void row(const char *name, work *library, work *plain, work *third)
{
	work *const calls[3] = { library, plain, third };
	double best[3] = { 0 };
	const unsigned runs = best_of(calls, best, third == NULL ? 2 : 3);
	want_accepted(name);
	printf("| %s | %zu | %" PRIu64 " |", name, size / 1024, entries);
	show_time(best[0]);
	show_time(best[1]);
	printf(" %.2f |", best[0] / best[1]);
	if (third != NULL) {
		show_time(best[2]);
		printf(" %.2f |", best[0] / best[2]);
	} else {
		printf(" | |");
	}
	printf(" %u |\n", runs);
	fflush(stdout);
}

/* ---- inputs ---- */

/* An empty sheet, and a good one of a few settings of two bytes. */
static void make_sheet(void)
{
	empty_sheet(empty, plan.identity, plan.revision, extended_number(&plan));
	memcpy(sheet, empty, sizeof empty);
	put_number(sheet, 12, 2, FIELDS_SET);
	for (uint64_t i = 0; i < FIELDS_SET; i++) {
		put_number(sheet, 16 + 8 * i, 4, 32 + 4 * i);
		put_number(sheet, 20 + 8 * i, 2, 2);
		put_number(sheet, 22 + 8 * i, 2, 16 + 8 * FIELDS_SET + 2 * i);
		put_number(sheet, 16 + 8 * FIELDS_SET + 2 * i, 2, i);
	}
}

/* A good sheet of as many settings as may be, of one byte each. */
static void make_large(void)
{
	memcpy(large, empty, sizeof empty);
	put_number(large, 12, 2, FIELDS_MOST);
	for (uint64_t i = 0; i < FIELDS_MOST; i++) {
		put_number(large, 16 + 8 * i, 4, 32 + 4 * i);
		put_number(large, 20 + 8 * i, 2, 1);
		put_number(large, 22 + 8 * i, 2, 16 + 8 * FIELDS_MOST + i);
		put_number(large, 16 + 8 * FIELDS_MOST + i, 1, i);
	}
}

/* One range of an owner list. */
static void put_range(uint8_t *owners, uint64_t i, uint64_t offset, uint64_t length, uint64_t owner)
{
	put_number(owners, 8 * i, 4, offset);
	put_number(owners, 8 * i + 4, 2, length);
	put_number(owners, 8 * i + 6, 2, owner);
}

/* All settings are owner 1's; or 64 ranges of owner 2's, with four of the large sheet's settings in each. */
static void make_owners(void)
{
	put_range(whole, 0, 32, plan.z - 32, 1);
	for (uint64_t i = 0; i < RANGES; i++)
		put_range(pieces, i, 32 + 16 * i, 16, 2);
}

/* An accepted image of a length with n entries. */
static void make_image(size_t length, uint64_t n)
{
	numbers_from(length + n);
	plan_plain(&plan);
	plan.n = entries = n;
	plan.before = n / 2;
	plan.z = length < 16384 ? 2048 : 4096;
	plan.base = 0xF0000000;
	lay_out(&plan, length);
	size = (size_t)plan.length;
	fill_bytes(image, plan.length);
	build(&plan, image);
	make_sheet();
	make_large();
	make_owners();
	if (size != length || second_read(image, size).number != 0)
		stop("the image is not as planned");
}

/* An accepted image with a header of h bytes and no entries. */
static void make_headed(uint64_t h)
{
	numbers_from(h);
	plan_plain(&plan);
	plan.h = h;
	plan.base = 0xF0000000;
	entries = 0;
	lay_out(&plan, 131072);
	size = (size_t)plan.length;
	fill_bytes(image, plan.length);
	build(&plan, image);
	if (second_read(image, size).number != 0)
		stop("the image with a long header is not as planned");
}

/* A list of 64 KiB of blocks of 8 to 56 bytes. */
static void make_list(void)
{
	seed(101);
	size = handoff_many(image, 65536);
	const struct second_list list_read = second_handoffs(image, size);
	entries = list_read.count;
	if (size != 65536 || list_read.number != 0)
		stop("the list is not as planned");
}

/* The shipped image the same; or moved, with every 16th byte after the tables another. */
static void make_shipped(bool many)
{
	memcpy(shipped, image, size);
	if (many) {
		refused += second_release(shipped, size, empty, sizeof empty, 0x00100000, whole, sizeof whole, 1).number;
		for (size_t at = (size_t)plan.E; at < size; at += 16)
			shipped[at] ^= 0x11;
	}
	const struct second_audited a = second_audit(image, size, shipped, size, list, 0);
	places_count = (size_t)(a.settings + a.strays);
}

/* All rows of one length and one n. */
static void rows(size_t length, uint64_t n)
{
	make_image(length, n);
	row("read", library_read, plain_read, NULL);
	row("release, move", library_move, plain_move, NULL);
	row("release, sheet", library_set, plain_set, NULL);
	row("release, 256 by 64", library_owned, plain_owned, library_one_range);
	make_shipped(false);
	row("audit, none", library_audit, plain_audit, memcmp_whole);
	make_shipped(true);
	row("audit, many", library_audit, plain_audit, memcmp_blocks);
}

/* The table. */
int main(void)
{
	static const size_t small[] = { 8192, 16384, 32768 }, lengths[] = { 65536, 1048576, 16777216 };
	static const uint64_t few[] = { 0, 2, 4, 16, 1024 }, counts[] = { 0, 16, 1024 };
	image = zeros(TWO24);
	shipped = zeros(TWO24);
	places = zeros(4 * TWO24);
	list = zeros(4 * TWO24);
	puts("| call | KiB | n | library | plain C | ratio | memcmp | ratio | runs |");
	puts("|---|---|---|---|---|---|---|---|---|");
	/* 1,024 words and their table don't go into 8 KiB */
	for (size_t i = 0; i < 3; i++)
		for (size_t k = 0; k < (i == 0 ? 4 : 5); k++)
			rows(small[i], few[k]);
	for (size_t i = 0; i < 3; i++)
		for (size_t k = 0; k < 3; k++)
			rows(lengths[i], counts[k]);
	make_list();
	row("handoffs", library_handoffs, plain_handoffs, NULL);
	make_headed(65534);
	row("read, header of 65,534", library_read, plain_read, one_word_sum);
	printf("\nProcessor time of our own, the best of as many runs as the row says (%u at least, in turn, until %u in a\n"
	       "row were no better). Ratio: library's time / the other's. \"none\": no difference, memcmp over the\n"
	       "whole; \"many\": moved, every 16th byte another, memcmp in blocks of %zu. \"release, move\": an empty sheet;\n"
	       "\"release, sheet\": the present base; \"256 by 64\": 256 settings in 64 ranges, beside it not memcmp but our own with one\n"
	       "range. \"handoffs\": blocks\n"
	       "of 8 to 56 bytes, n of them. \"header of 65,534\": beside it not memcmp but the header's sum alone, a word a turn.\n",
	       LEAST_RUNS, QUIET_RUNS, BLOCK);
	return 0;
}
