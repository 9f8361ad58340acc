/* The speed of Intel HEX both ways, as a ratio to the second reader's plain C: each time the best of the row's runs. */
#include <inttypes.h>
#include <stdio.h>

#include "images.h"
#include "tables.h"
#include "timing.h"
#include "../second/hex.h"

#define BASE UINT64_C(0xF0001000)

const char table_name[] = "speed_hex";

static uint8_t *text;
static size_t text_length;

static void library_export(void)
{
	refused += pajurenda_hex_export(image, size, BASE, text, PAJURENDA_MOST_HEX, answer, sizeof answer);
}

static void plain_export(void)
{
	refused += second_export(image, size, BASE, text, PAJURENDA_MOST_HEX).number;
}

static void library_import(void)
{
	refused += pajurenda_hex_import(text, text_length, shipped, size, answer, sizeof answer);
}

static void plain_import(void)
{
	refused += second_import(text, text_length, shipped, size).number;
}

/* One row: both sides in turn. */
static void row(const char *name, work *library, work *plain)
{
	work *const calls[] = { library, plain };
	double best[2];
	const unsigned runs = best_of(calls, best, 2);
	want_accepted(name);
	printf("| %s | %zu |", name, size / 1024);
	show_time(best[0]);
	show_time(best[1]);
	printf(" %.2f | %u |\n", best[0] / best[1], runs);
}

/* The table. */
int main(void)
{
	static const size_t lengths[] = { 65536, 1048576, 16777216 };
	image = zeros(PAJURENDA_MOST_IMAGE);
	shipped = zeros(PAJURENDA_MOST_IMAGE);
	text = zeros(PAJURENDA_MOST_HEX);
	numbers_from(112);
	fill_bytes(image, PAJURENDA_MOST_IMAGE);
	puts("| call | KiB | library | plain C | ratio | runs |");
	puts("|---|---|---|---|---|---|");
	for (size_t i = 0; i < sizeof lengths / sizeof lengths[0]; i++) {
		size = lengths[i];
		row("hex export", library_export, plain_export);
		text_length = (size_t)second_export(image, size, BASE, text, PAJURENDA_MOST_HEX).length;
		row("hex import", library_import, plain_import);
	}
	return 0;
}
