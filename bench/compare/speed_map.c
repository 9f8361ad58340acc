/* The speed of the memory map and of a place in it, as a ratio to the second reader's plain C: each time the best of the row's runs. */
#include <inttypes.h>
#include <stdio.h>

#include "images.h"
#include "map_lists.h"
#include "tables.h"
#include "timing.h"
#include "../second/map.h"

#define IMAGE_SIZE UINT64_C(1048576)

const char table_name[] = "speed_map";

static uint8_t ranges[PAJURENDA_MAP_ROOM];

static void library_map(void)
{
	refused += pajurenda_map(made, made_size, ranges, sizeof ranges, answer, sizeof answer);
}

static void plain_map(void)
{
	refused += second_map(made, made_size).number;
}

static void library_place(void)
{
	refused += pajurenda_lowest_base(made, made_size, IMAGE_SIZE, answer, sizeof answer);
}

static void plain_place(void)
{
	refused += second_place(made, made_size, IMAGE_SIZE).number;
}

/* One row: both sides in turn. */
static void row(const char *call, const char *list, work *library, work *plain)
{
	work *const calls[] = { library, plain };
	double best[2];
	const unsigned runs = best_of(calls, best, 2);
	want_accepted(list);
	printf("| %s | %s | %zu |", call, list, made_size / 1024);
	show_time(best[0]);
	show_time(best[1]);
	printf(" %.2f | %u |\n", best[0] / best[1], runs);
}

/* 128 ranges in so many bytes, the rest in blocks of so many: by how the ranges stand in the list. */
static void rows(size_t bytes, uint64_t other)
{
	static const char *const orders[] = { "ascending", "descending", "mixed" };
	char list[64];
	for (int order = ASCENDING; order <= MIXED; order++) {
		full_list(bytes, other, (enum order)order);
		snprintf(list, sizeof list, "%s, other blocks of %" PRIu64, orders[order], other);
		row("map", list, library_map, plain_map);
	}
	row("place", list, library_place, plain_place);
}

/* The table. */
int main(void)
{
	open_lists(PAJURENDA_MOST_IMAGE);
	numbers_from(111);
	puts("| call | 128 ranges | KiB | library | plain C | ratio | runs |");
	puts("|---|---|---|---|---|---|---|");
	rows(65536, 57344);
	rows(65536, 48);
	rows(65536, 8);
	rows(PAJURENDA_MOST_IMAGE, 8);
	return 0;
}
