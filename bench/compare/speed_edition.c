/* #109: the speed of an edition 1 audit as a ratio to the second reader's plain C, to the rival's and to memcmp: the best of the row's runs. */
#include <stdbool.h>
#include <stdio.h>
#include <string.h>

#include "fields.h"
#include "images.h"
#include "tables.h"
#include "timing.h"
#include "../second/rival.h"

#define BLOCK ((size_t)64)

const char table_name[] = "speed_edition";

static uint8_t *places;
static uint32_t *list;
static size_t places_count;
static volatile uint64_t different;
static int (*const volatile compare_all)(const void *, const void *, size_t) = memcmp;

static void library_audit(void)
{
	refused += pajurenda_audit(image, size, shipped, size, places, 4 * places_count, answer, sizeof answer);
}

static void plain_audit(void)
{
	refused += second_audit(image, size, shipped, size, list, places_count).number;
}

static void rival_audits(void)
{
	refused += rival_audit(image, size, shipped, size, list, places_count).number;
}

/* Both buffers at once. */
static void memcmp_whole(void)
{
	different += (uint64_t)(compare_all(image, shipped, size) != 0);
}

/* Both buffers block by block, so that a difference does not end it. */
static void memcmp_blocks(void)
{
	uint64_t blocks = 0;
	for (size_t at = 0; at < size; at += BLOCK)
		blocks += (uint64_t)(compare_all(image + at, shipped + at, BLOCK) != 0);
	different += blocks;
}

/* One row: all four in turn. */
static void row(const char *name, work *compared)
{
	work *const calls[] = { library_audit, plain_audit, rival_audits, compared };
	double best[4];
	const unsigned runs = best_of(calls, best, 4);
	want_accepted(name);
	printf("| %s | %zu | %zu |", name, size / 1024, places_count);
	show_time(best[0]);
	for (size_t k = 1; k < 4; k++) {
		show_time(best[k]);
		printf(" %.2f |", best[0] / best[k]);
	}
	printf(" %u |\n", runs);
	fflush(stdout);
}

/* An image of edition 1 of some length. */
static void make_older(size_t length)
{
	static struct plan plan;
	numbers_from(length);
	plan_plain(&plan);
	plan.base = 0xF0000000;
	lay_out(&plan, length);
	size = (size_t)plan.length;
	fill_bytes(image, plan.length);
	build(&plan, image);
	put_number(image, (size_t)plan.H + 11, 1, 1);
	put_number(image, (size_t)plan.H + 4, 4, 60);
	const struct second_reading r = second_read(image, size);
	if (size != length || r.number != 0 || r.component != 0)
		stop("the image is not as planned");
}

/* The shipped file the same; or every so many bytes after the header another. */
static void make_shipped(size_t step)
{
	memcpy(shipped, image, size);
	for (size_t at = 256; step != 0 && at < size; at += step)
		shipped[at] ^= 0x11;
	places_count = (size_t)second_audit(image, size, shipped, size, list, 0).strays;
}

/* The table. */
int main(void)
{
	static const size_t lengths[] = { 65536, 1048576, 16777216 };
	image = zeros(TWO24);
	shipped = zeros(TWO24);
	places = zeros(4 * TWO24);
	list = zeros(4 * TWO24);
	puts("| edition 1 | KiB | differences | library | plain C | ratio | rival | ratio | memcmp | ratio | runs |");
	puts("|---|---|---|---|---|---|---|---|---|---|---|");
	for (size_t i = 0; i < sizeof lengths / sizeof lengths[0]; i++) {
		make_older(lengths[i]);
		make_shipped(0);
		row("audit, none", memcmp_whole);
		make_shipped(4096);
		row("audit, few", memcmp_blocks);
		make_shipped(16);
		row("audit, many", memcmp_blocks);
		make_shipped(1);
		row("audit, all", memcmp_blocks);
	}
	return 0;
}
