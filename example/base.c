/*
 * base IMAGE: says which base the image in a file is at.
 *
 *     cc -Iinclude example/base.c target/staticlib/libpajurenda.a -o base
 */
#include <stdio.h>
#include "pajurenda.h"

int main(int count, char **word)
{
	static uint8_t image[PAJURENDA_MOST_IMAGE + 1];
	uint8_t answer[PAJURENDA_READ_BYTES];
	FILE *file = count == 2 ? fopen(word[1], "rb") : NULL;
	if (file == NULL)
		return 2;
	size_t length = fread(image, 1, sizeof image, file);
	uint32_t number = pajurenda_read(image, length, answer, sizeof answer);
	if (number != PAJURENDA_ACCEPTED) {
		printf("refused %s: %s\n", pajurenda_name(number), pajurenda_sentence(number));
		return 2;
	}
	printf("base 0x%08lX\n", (unsigned long)pajurenda_field(answer, PAJURENDA_READ_BASE));
	return 0;
}
