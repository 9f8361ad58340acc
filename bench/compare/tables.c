/* What the two speed tables share. */
#include "tables.h"

#include <stdio.h>
#include <stdlib.h>

#include "../second/second.h"

uint8_t *image, *shipped;
size_t size;
uint8_t answer[PAJURENDA_READ_BYTES];
volatile uint64_t refused;

uint64_t next_base(void)
{
	static uint64_t turn;
	return turn++ % 2 == 0 ? 0x00100000 : 0x80000000;
}

void library_read(void)
{
	refused += pajurenda_read(image, size, answer, sizeof answer);
}

void plain_read(void)
{
	refused += second_read(image, size).number;
}

void stop(const char *what)
{
	fprintf(stderr, "%s: %s\n", table_name, what);
	exit(2);
}

void want_accepted(const char *row)
{
	if (refused == 0)
		return;
	fprintf(stderr, "%s: %s was refused\n", table_name, row);
	exit(2);
}

void *zeros(size_t bytes)
{
	void *got = calloc(1, bytes);
	if (got == NULL)
		stop("no memory");
	return got;
}
