/* The library's speed on images with modules: against the second reader's plain C and the rival written for speed; and how long the worst
   images that we know of hold it.
   speed_modules: the rows and the worst images that a plain walk gets through; speed_modules long, endless: the others of these. */
#include "fields.h"

#include <inttypes.h>
#include <stdbool.h>
#include <stdio.h>
#include <stdlib.h>
#include <string.h>
#include <time.h>

#include "tables.h"
#include "timing.h"
#include "../make/large.h"
#include "../second/rival.h"
#include "../second/second.h"

#define SHEET_BYTES 16
#define MODULES 64
#define WORDS 30000

const char table_name[] = "speed_modules";

static struct large large;
static uint32_t *list;
static uint8_t empty[SHEET_BYTES], none[1];

static void rivals_read(void)
{
	refused += rival_read(image, size).number;
}

static void shortest_read(void)
{
	refused += fastest_read(image, size).number;
}

static void library_move(void)
{
	refused += pajurenda_release(image, size, empty, sizeof empty, next_base(), none, 0, 1, answer, sizeof answer);
}

static void plain_move(void)
{
	refused += second_release(image, size, empty, sizeof empty, next_base(), none, 0, 1).number;
}

static void rivals_move(void)
{
	refused += rival_move(image, size, next_base()).number;
}

static void shortest_move(void)
{
	refused += fastest_move(image, size, next_base()).number;
}

static void library_audit(void)
{
	refused += pajurenda_audit(image, size, shipped, size, none, 0, answer, sizeof answer);
}

static void plain_audit(void)
{
	refused += second_audit(image, size, shipped, size, list, 0).number;
}

static void rivals_audit(void)
{
	refused += rival_audit(image, size, shipped, size, list, 0).number;
}

static void shortest_audit(void)
{
	refused += fastest_audit(image, size, shipped, size, list, 0).number;
}

/* ---- inputs ---- */

/* An empty sheet for the image. */
static void make_sheet(void)
{
	put_number(empty, 0, 8, large.identity);
	put_number(empty, 8, 4, large.revision);
	put_number(empty, 12, 2, 0);
	put_number(empty, 14, 2, large.extended);
}

/* The shipped file is the image, moved by the rival or not. */
static void make_shipped(bool moved)
{
	memcpy(shipped, image, size);
	if (moved && rival_move(shipped, size, 0x00345000).number != 0)
		stop("the image can't be moved");
}

/* ---- the rows ---- */

/* A time with the library's over it. */
static void show_other(double library, double other)
{
	show_time(other);
	printf(" %.2f |", library / other);
}

/* One row: the library, plain C, the rival, the rival with shortcuts. */
static void row(const char *name, bool shuffled, work *const calls[4])
{
	double best[4] = { 0 };
	const unsigned runs = best_of(calls, best, 4);
	want_accepted(name);
	printf("| %s | %s | %" PRIu64 " |", name, shuffled ? "no order" : "ascending", large.patches);
	show_time(best[0]);
	for (unsigned i = 1; i < 4; i++)
		show_other(best[0], best[i]);
	printf(" %u |\n", runs);
	fflush(stdout);
}

/* An image of 1 MiB with so many patch words and relocation words. */
static void make_modules(uint64_t patches, uint64_t words, bool shuffled)
{
	size = 1048576;
	plan_large(&large, size, patches);
	large_modules(&large, image, MODULES, words, shuffled);
	make_sheet();
	if (second_words(image, size, NULL, 0) != 1 + patches + MODULES + words)
		stop("the image is not as planned");
}

/* All rows of one image. */
static void rows(uint64_t patches, bool shuffled)
{
	make_modules(patches, WORDS, shuffled);
	row("read", shuffled, (work *const[]){ library_read, plain_read, rivals_read, shortest_read });
	row("release, move", shuffled, (work *const[]){ library_move, plain_move, rivals_move, shortest_move });
	make_shipped(false);
	row("audit, equal", shuffled, (work *const[]){ library_audit, plain_audit, rivals_audit, shortest_audit });
	make_shipped(true);
	row("audit, moved", shuffled, (work *const[]){ library_audit, plain_audit, rivals_audit, shortest_audit });
}

/* A reading and an audit where the modules have few words, without patch words. */
static void rows_of_few(uint64_t words)
{
	char read[32], audit[32];
	make_modules(0, words, false);
	make_shipped(true);
	snprintf(read, sizeof read, "read, %" PRIu64 " words", words);
	snprintf(audit, sizeof audit, "audit, moved, %" PRIu64 " words", words);
	row(read, false, (work *const[]){ library_read, plain_read, rivals_read, shortest_read });
	row(audit, false, (work *const[]){ library_audit, plain_audit, rivals_audit, shortest_audit });
}

/* ---- a free end ---- */

/* Both files at once. */
static void memcmp_whole(void)
{
	static int (*const volatile compare)(const void *, const void *, size_t) = memcmp;
	refused += (uint64_t)(compare(image, shipped, size) != 0);
}

/* The maker of a hostile image by its name. */
static const struct hostile *hostile_named(const char *name)
{
	for (unsigned i = 0; i < hostiles; i++)
		if (strcmp(hostile[i].name, name) == 0)
			return &hostile[i];
	stop("no hostile image has that name");
	return NULL;
}

/* A reading, and an audit of equal files, where nearly all of 16 MiB is a free end. */
static void free_rows(uint64_t patches)
{
	size = LARGE_MOST;
	plan_large(&large, size, patches);
	hostile_named("free end")->make(&large, image);
	make_shipped(false);
	work *const calls[3] = { library_audit, memcmp_whole, library_read };
	double best[3] = { 0 };
	const unsigned runs = best_of(calls, best, 3);
	want_accepted("free end");
	printf("| %" PRIu64 " |", patches);
	show_time(best[2]);
	show_other(best[2], best[1]);
	show_time(best[0]);
	printf(" %.2f | %u |\n", best[0] / best[1], runs);
	fflush(stdout);
}

/* ---- the worst images ---- */

/* Seconds that the processor gave one call. */
static double once(work *call)
{
	const clock_t from = clock();
	call();
	return (double)(clock() - from) / CLOCKS_PER_SEC;
}

/* One image of 16 MiB: a reading, a move and an audit by the library, a reading by the rival; unmoved where nobody else can move it. */
static void worst(const struct hostile *one, uint64_t patches)
{
	size = LARGE_MOST;
	plan_large(&large, size, patches);
	one->make(&large, image);
	make_sheet();
	make_shipped(one->cost == COST_PLAIN);
	const double read = once(library_read), audit = once(library_audit), move = once(library_move);
	printf("| %s | %" PRIu64 " | %" PRIu64 " | %.2f s | %.2f s | %.2f s |", one->name, patches, large.words, read, move, audit);
	if (one->cost == COST_PLAIN)
		printf(" %.2f s |\n", once(rivals_read));
	else
		printf(" |\n");
	fflush(stdout);
	want_accepted(one->name);
}

/* The worst images of one cost, without patch words and with as many as can be. */
static void worst_of(enum cost cost)
{
	puts("| 16 MiB of | n | words | read | move | audit | rival's read |");
	puts("|---|---|---|---|---|---|---|");
	for (unsigned i = 0; i < hostiles; i++) {
		if (hostile[i].cost != cost)
			continue;
		worst(&hostile[i], 0);
		worst(&hostile[i], LARGE_PATCHES);
	}
}

int main(int count, char **word)
{
	image = zeros(LARGE_MOST);
	shipped = zeros(LARGE_MOST);
	list = zeros(16);
	if (count == 2 && strcmp(word[1], "long") == 0) {
		worst_of(COST_LONG);
		return 0;
	}
	if (count == 2 && strcmp(word[1], "endless") == 0) {
		worst_of(COST_ENDLESS);
		return 0;
	}
	puts("| call | words of a module | n | library | plain C | ratio | rival | ratio | with shortcuts | ratio | runs |");
	puts("|---|---|---|---|---|---|---|---|---|---|---|");
	for (unsigned i = 0; i < 4; i++)
		rows(i % 2 == 0 ? 0 : LARGE_PATCHES, i / 2 == 1);
	static const uint64_t few[] = { 0, 64, 300, 1000, 3000, 7500 };
	for (unsigned i = 0; i < 6; i++)
		rows_of_few(few[i]);
	printf("\n%d modules with %d relocation words in 1 MiB where a row says no other number, n patch words.\n"
	       "16 MiB, nearly all of it a free end; the audit is of equal files:\n\n",
	       MODULES, WORDS);
	puts("| n | read | memcmp | ratio | audit | ratio | runs |");
	puts("|---|---|---|---|---|---|---|");
	free_rows(0);
	free_rows(LARGE_PATCHES);
	puts("\nThe worst images that we know of:\n");
	worst_of(COST_PLAIN);
	return 0;
}
