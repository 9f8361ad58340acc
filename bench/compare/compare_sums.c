/* The sum of the volume's header, by the linked library and by the second reader: every rest of a turn, the shortest and the longest header, right
   and off by one in the low or the high byte of a word. */
#include "fields.h"

#include <inttypes.h>
#include <stdbool.h>
#include <stdio.h>
#include <stdlib.h>

#include "images.h"
#include "../second/second.h"

#define LEAST UINT64_C(72)
#define MOST UINT64_C(65534)
#define NEAR UINT64_C(16) /* so many lengths at each end are all tried */
#define ENDS UINT64_C(5)  /* so many words at each end of the header are put off */

static uint8_t image[131072];
static struct plan plan;
static uint64_t calls, accepted, refused;

/* An image that is right, with a header of h bytes. */
static void make(uint64_t h)
{
	plan_plain(&plan);
	plan.h = h;
	lay_out(&plan, h + 4096);
	if (plan.length > sizeof image) {
		fputs("compare_sums: no room for the image\n", stderr);
		exit(2);
	}
	fill_bytes(image, plan.length);
	build(&plan, image);
}

/* Both readers on the image as it is: the number is the one that is wanted, and theirs. */
static void same(uint64_t wanted, uint64_t byte)
{
	uint8_t answer[PAJURENDA_READ_BYTES];
	const uint64_t first = pajurenda_read(image, (size_t)plan.length, answer, sizeof answer);
	const uint64_t second = second_read(image, plan.length).number;
	calls++;
	if (first != second || first != wanted) {
		printf("header of %" PRIu64 " bytes, byte %" PRIu64 " put off: library %" PRIu64 ", second reader %" PRIu64 ", wanted %" PRIu64 "\n",
		       plan.h, byte, first, second, wanted);
		exit(1);
	}
	if (first == 0)
		accepted++;
	else
		refused++;
}

/* One byte of the header one more, and back. */
static void put_off(uint64_t byte)
{
	image[byte]++;
	same(PAJURENDA_VOLUME, byte);
	image[byte]--;
}

/* A header right, and with each of the words at its ends put off: no rule speaks of those bytes. */
static void whole(uint64_t h)
{
	make(h);
	same(PAJURENDA_ACCEPTED, 0);
	for (uint64_t i = 0; i < 2 * ENDS; i++) {
		put_off(i);
		put_off(h - 1 - i);
	}
	same(PAJURENDA_ACCEPTED, 0);
}

int main(int count, char **words)
{
	if (count != 3) {
		fputs("usage: compare_sums SEED LENGTHS\n", stderr);
		return 2;
	}
	numbers_from(strtoull(words[1], NULL, 10));
	for (uint64_t i = 0; i < NEAR; i++) {
		whole(LEAST + 2 * i);
		whole(MOST - 2 * i);
	}
	for (uint64_t left = strtoull(words[2], NULL, 10); left > 0; left--)
		whole(LEAST + 2 * below((MOST - LEAST) / 2 + 1));
	printf("header sums: %" PRIu64 " readings, %" PRIu64 " accepted, %" PRIu64 " refused, none different\n", calls, accepted, refused);
	return 0;
}
