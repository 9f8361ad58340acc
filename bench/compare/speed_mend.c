/* #110: the speed of a mending as a ratio to an audit plus a release of the same pair, and to the second reader's plain C: the best of the
   row's runs, taken in turn in one program. */
#include <inttypes.h>
#include <stdbool.h>
#include <stdio.h>
#include <string.h>

#include "fields.h"
#include "tables.h"
#include "timing.h"
#include "../make/large.h"
#include "../second/mend.h"

#define SHEET_BYTES 16
/* Modules and relocation words in each MiB. */
#define MODULES 64
#define WORDS 30000
#define MIB ((size_t)1048576)
#define SETTINGS 1000

const char table_name[] = "speed_mend";

static struct large large;
static uint8_t *harmed, *released, *places;
static uint32_t *list;
static size_t differ, step;
static uint8_t empty[SHEET_BYTES], none[1];

/* A stray may stand here: neither in the base word nor in the settings. */
static bool is_stray_at(size_t at)
{
	return (at < large.H + 28 || at >= large.H + 32) && (at < large.c + 32 || at >= large.c + large.z);
}

/* The strays again, which a mending has put back; the audit does the same work before it, though its strays are still there. */
static void harm(void)
{
	for (size_t at = 0; step != 0 && at < size; at += step)
		shipped[at] = harmed[at];
}

static void library_mend(void)
{
	harm();
	refused += pajurenda_mend(image, size, shipped, size, places, PAJURENDA_PLACE_BYTES * differ, answer, sizeof answer);
}

static void library_audit(void)
{
	harm();
	refused += pajurenda_audit(image, size, shipped, size, places, PAJURENDA_PLACE_BYTES * differ, answer, sizeof answer);
}

/* The release that makes the reference: the vendor's image moved, two bases in turn. */
static void library_release(void)
{
	refused += pajurenda_release(released, size, empty, sizeof empty, next_base(), none, 0, 1, answer, sizeof answer);
}

static void plain_mend(void)
{
	harm();
	refused += second_mend(image, size, shipped, size, list, differ).number;
}

/* An empty sheet for the image. */
static void make_sheet(void)
{
	put_number(empty, 0, 8, large.identity);
	put_number(empty, 8, 4, large.revision);
	put_number(empty, 12, 2, 0);
	put_number(empty, 14, 2, large.extended);
}

/* The vendor's image moved, so many settings others, and each so many bytes a stray; none where that is 0. */
static void make_shipped(size_t apart)
{
	memcpy(shipped, image, size);
	if (second_release(shipped, size, empty, sizeof empty, 0x00345000, none, 0, 1).number != 0)
		stop("the image can't be moved");
	for (size_t i = 0; i < SETTINGS; i++)
		shipped[large.c + 32 + i] ^= 0x5A;
	memcpy(harmed, shipped, size);
	for (size_t at = 0; apart != 0 && at < size; at += apart)
		harmed[at] ^= is_stray_at(at) ? 0x11 : 0;
	step = apart;
	harm();
	const struct second_audited found = second_audit(image, size, shipped, size, list, 0);
	if (found.settings != SETTINGS || (found.strays == 0) != (apart == 0))
		stop("the shipped file is not as planned");
	differ = (size_t)(found.settings + found.strays);
}

/* One row: the mending, what it is held against, and plain C. */
static void row(const char *name, size_t apart)
{
	work *const calls[] = { library_mend, library_audit, library_release, plain_mend };
	double best[4];
	make_shipped(apart);
	memcpy(released, image, size);
	const unsigned runs = best_of(calls, best, 4);
	want_accepted(name);
	printf("| %s | %zu | %" PRIu64 " | %zu |", name, size / 1024, large.patches, differ - SETTINGS);
	for (size_t k = 0; k < 3; k++)
		show_time(best[k]);
	printf(" %.2f |", best[0] / (best[1] + best[2]));
	show_time(best[3]);
	printf(" %.2f | %u |\n", best[0] / best[3], runs);
	fflush(stdout);
}

/* All rows of one image with modules. */
static void rows(size_t length, uint64_t patches)
{
	size = length;
	plan_large(&large, size, patches);
	large_modules(&large, image, length / MIB * MODULES, length / MIB * WORDS, false);
	make_sheet();
	row("no stray", 0);
	row("few strays", 16384);
	row("many strays", 16);
}

/* The table. */
int main(void)
{
	image = zeros(LARGE_MOST);
	shipped = zeros(LARGE_MOST);
	harmed = zeros(LARGE_MOST);
	released = zeros(LARGE_MOST);
	places = zeros(PAJURENDA_PLACE_BYTES * LARGE_MOST);
	list = zeros(sizeof *list * LARGE_MOST);
	puts("| mend, 1,000 settings | KiB | n | strays | mend | audit | release | ratio to both | plain C's mend | ratio | runs |");
	puts("|---|---|---|---|---|---|---|---|---|---|---|");
	rows(MIB, 0);
	rows(MIB, LARGE_PATCHES);
	rows(16 * MIB, LARGE_PATCHES);
	return 0;
}
