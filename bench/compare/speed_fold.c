/* The speed of folds: piles of 50 sheets as a ratio to the second reader's plain C, each time the best of the row's runs; then piles of 16 MiB
   that ask for the most, each once. */
#include <inttypes.h>
#include <stdio.h>
#include <time.h>

#include "fold_piles.h"
#include "images.h"
#include "tables.h"
#include "timing.h"
#include "../second/fold.h"

#define SHEETS 50
#define PILE_ROOM ((size_t)16777216)
/* No pile of 16 MiB takes longer than so many seconds. */
#define MOST_SECONDS 10.0

const char table_name[] = "speed_fold";

static struct pile pile;
static uint8_t output[PAJURENDA_MOST_SHEET];

static void library_fold(void)
{
	refused += pajurenda_fold(pile.at, pile.length, output, sizeof output, answer, sizeof answer);
}

static void plain_fold(void)
{
	refused += second_fold(pile.at, pile.length, output, sizeof output).number;
}

/* ---- piles of 50 sheets ---- */

/* A sheet of so many entries of up to so many bytes, each anywhere in its own part of so many bytes of settings. */
static void add_spread(uint64_t entries, uint64_t bytes, uint64_t span)
{
	const uint64_t part = span / entries;
	begin_sheet(&pile, entries);
	for (uint64_t i = 0; i < entries; i++) {
		const uint64_t length = 1 + below(bytes < part ? bytes : part);
		add_run(&pile, 32 + i * part + below(part - length + 1), length);
	}
}

/* 50 such sheets. */
static void row(const char *name, uint64_t entries, uint64_t bytes, uint64_t span)
{
	work *const calls[] = { library_fold, plain_fold };
	double best[2];
	clear_pile(&pile);
	for (int i = 0; i < SHEETS; i++)
		add_spread(entries, bytes, span);
	refused = 0;
	const unsigned runs = best_of(calls, best, 2);
	want_accepted(name);
	printf("| %s | %zu |", name, pile.length);
	show_time(best[0]);
	show_time(best[1]);
	printf(" %.2f | %u |\n", best[0] / best[1], runs);
}

/* ---- piles of 16 MiB ---- */

/* Whether a sheet of so many bytes more has room, with 8,192 left for what comes last. */
static int has_room(uint64_t bytes)
{
	return pile.length + 4 + bytes + 8192 <= PILE_ROOM;
}

/* A sheet of so many runs of one byte, each so far after the one before. */
static void add_every(uint64_t runs, uint64_t from, uint64_t step)
{
	begin_sheet(&pile, runs);
	for (uint64_t i = 0; i < runs; i++)
		add_run(&pile, from + step * i, 1);
}

/* 256 runs of one byte, so far apart that each is a window of its own: what makes the most passes over the pile and is accepted. */
static void add_far(void)
{
	add_every(256, 0, 16000000);
}

/* Sheets without entries. */
static void fill_empty(void)
{
	while (has_room(16))
		begin_sheet(&pile, 0);
	add_far();
}

/* Sheets of one entry of one byte, all at the same offset. */
static void fill_single(void)
{
	while (has_room(25))
		add_sheet(&pile, 0, 1);
	add_far();
}

/* Sheets of 256 entries of one byte: the most entries that a pile can have. */
static void fill_many(void)
{
	while (has_room(16 + 9 * 256))
		add_far();
	add_far();
}

/* Runs of one byte in descending order, joined by the last sheets. */
static void fill_descending(void)
{
	for (uint64_t at = 60000; has_room(25); at = at < 34 ? 60000 : at - 2)
		add_sheet(&pile, at, 1);
	add_sheet(&pile, 0, 3000);
}

/* The highest offsets. */
static void fill_high(void)
{
	while (has_room(16 + 9 * 256))
		add_every(256, 0xFFFFFFFF - 4 * 255, 4);
}

/* Long runs, each the whole of a sheet. */
static void fill_long(void)
{
	while (has_room(65535))
		add_sheet(&pile, 32, 65000);
}

/* One byte, drawn from 256 places: each is looked for among the runs. */
static void fill_drawn(void)
{
	while (has_room(25))
		add_sheet(&pile, 2 * below(256), 1);
}

/* 512 runs, as many as are kept, and all that follows at the last of them. */
static void fill_512(void)
{
	add_every(256, 0, 1000);
	add_every(256, 256000, 1000);
	while (has_room(25))
		add_sheet(&pile, 511000, 1);
}

/* The same with one run more. */
static void fill_513(void)
{
	add_every(1, 512000, 1000);
	fill_512();
}

/* 512 runs, then new ones after them, each before the others. */
static void fill_between(void)
{
	add_every(256, 0, 2);
	add_every(256, 512, 2);
	for (uint64_t at = 0xFFFFFFFE; has_room(25); at -= 2)
		add_sheet(&pile, at, 1);
}

/* A run too long for a sheet, seen when all runs are there. */
static void fill_overlong(void)
{
	add_sheet(&pile, 0, 40000);
	add_sheet(&pile, 30000, 40000);
	while (has_room(25))
		add_sheet(&pile, 100000, 1);
}

/* More runs than are kept, which the last sheets join to one: the runs don't tell enough, and windows are walked. */
static void add_close(void)
{
	for (uint64_t k = 0; k < 5; k++)
		add_every(256, 512 * k, 2);
}

static void join_close(void)
{
	add_sheet(&pile, 0, 2600);
	add_every(255, 16000000, 16000000);
}

/* Sheets without entries between. */
static void fill_joined_empty(void)
{
	add_close();
	while (has_room(16))
		begin_sheet(&pile, 0);
	join_close();
}

/* Sheets of 255 entries between. */
static void fill_joined_many(void)
{
	add_close();
	while (has_room(16 + 9 * 255))
		add_every(255, 16000000, 16000000);
	join_close();
}

/* Sheets of none or one of these bytes, drawn: no processor guesses which. */
static void fill_joined_drawn(void)
{
	add_close();
	while (has_room(25))
		add_every(below(2), 16000000 * (1 + below(255)), 1);
	join_close();
}

static void hostile(const char *name, void (*make)(void))
{
	clear_pile(&pile);
	make();
	const clock_t start = clock();
	const uint32_t number = pajurenda_fold(pile.at, pile.length, output, sizeof output, answer, sizeof answer);
	const double seconds = (double)(clock() - start) / CLOCKS_PER_SEC;
	printf("| %s | %zu | %" PRIu32 " |", name, pile.length, number);
	show_time(seconds);
	putchar('\n');
	if (seconds > MOST_SECONDS)
		stop("a pile of 16 MiB takes too long");
}

/* Both tables. */
int main(void)
{
	pile = (struct pile){ .at = zeros(PILE_ROOM), .room = PILE_ROOM };
	numbers_from(114);
	puts("| 50 sheets | pile's bytes | library | plain C | ratio | runs |");
	puts("|---|---|---|---|---|---|");
	row("of one byte, in 1 KiB", 1, 1, 1000);
	row("of 4 settings up to 4 bytes, in 1 KiB", 4, 4, 1000);
	row("of 8 settings up to 8 bytes, in 4 KiB", 8, 8, 4000);
	row("of 20 settings up to 50 bytes, in 4 KiB", 20, 50, 4000);
	row("of 1 setting up to 60000 bytes", 1, 60000, 60000);
	row("of 4 settings up to 4 bytes, in 60 KiB", 4, 4, 60000);
	row("of one byte, in 60 KiB", 1, 1, 60000);
	row("of 4 settings up to 4 bytes, in 16 MiB", 4, 4, 16000000);
	row("of one byte, in 16 MiB", 1, 1, 16000000);
	row("of one byte at one offset", 1, 1, 1);
	row("of 16 settings of one byte, in 256", 16, 1, 256);
	row("of 64 settings of one byte, in 256", 64, 1, 256);
	puts("\n| 16 MiB | bytes | number | library |");
	puts("|---|---|---|---|");
	hostile("sheets without entries, then 256 runs far apart", fill_empty);
	hostile("sheets of one byte at one offset, then 256 runs far apart", fill_single);
	hostile("sheets of 256 runs far apart", fill_many);
	hostile("one byte runs in descending order, joined at the end", fill_descending);
	hostile("sheets of 256 runs at the highest offsets", fill_high);
	hostile("sheets of one long run", fill_long);
	hostile("one byte, drawn from 256 places", fill_drawn);
	hostile("512 runs, then one byte at the last", fill_512);
	hostile("513 runs, then one byte at the 512th", fill_513);
	hostile("512 runs, then new ones in descending order", fill_between);
	hostile("a run of 70,000 bytes, then one byte after it", fill_overlong);
	hostile("1,280 runs that are joined at the end, sheets without entries between", fill_joined_empty);
	hostile("the same, 255 far runs in each sheet between", fill_joined_many);
	hostile("the same, none or one drawn far byte in each sheet between", fill_joined_drawn);
	return 0;
}
