/* The speed of SHA-256, as a ratio to the plain C of the second reader: each time the best of the row's runs. */
#include <stdio.h>

#include "images.h"
#include "tables.h"
#include "timing.h"
#include "../second/sha256.h"

const char table_name[] = "speed_digest";

static void library_sha256(void)
{
	refused += pajurenda_sha256(image, size, answer, sizeof answer);
}

static void plain_sha256(void)
{
	second_sha256(image, size, answer);
}

/* The table. */
int main(void)
{
	static const size_t lengths[] = { 64, 4096, 65536, 1048576, 16777216 };
	work *const calls[] = { library_sha256, plain_sha256 };
	image = zeros(PAJURENDA_MOST_IMAGE);
	numbers_from(180);
	fill_bytes(image, PAJURENDA_MOST_IMAGE);
	puts("| call | bytes | library | plain C | ratio | library, MB/s | runs |");
	puts("|---|---|---|---|---|---|---|");
	for (size_t i = 0; i < sizeof lengths / sizeof lengths[0]; i++) {
		double best[2];
		size = lengths[i];
		const unsigned runs = best_of(calls, best, 2);
		want_accepted("sha256");
		printf("| sha256 | %zu |", size);
		show_time(best[0]);
		show_time(best[1]);
		printf(" %.2f | %.0f | %u |\n", best[0] / best[1], (double)size / best[0] / 1e6, runs);
	}
	return 0;
}
