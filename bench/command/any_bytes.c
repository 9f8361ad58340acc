/*
 * The words of every refusal on any bytes: any_bytes IMAGE SEED TURNS. What is shown beside a number must never be read outside the
 * file, whatever stands in it and whatever the number; the buffers are as long as the bytes, so that the address checks see it.
 */
#include <inttypes.h>
#include <stdio.h>
#include <stdlib.h>
#include <string.h>

#include "owners.h"
#include "pajurenda.h"
#include "refusals.h"
#include "../second/sha256.h"
#include "../make/drawn.h"

/* A byte at an edge, or any. */
static uint8_t draw_byte(void)
{
	static const uint8_t edges[] = { 0, 1, 127, 128, 254, 255 };
	return below(2) == 0 ? edges[below(sizeof edges)] : (uint8_t)below(256);
}

/* The digest that goes with a file that is read, by the second reader. */
uint32_t pajurenda_sha256(const uint8_t *bytes, size_t length, uint8_t *answer, size_t answer_length)
{
	(void)answer_length;
	second_sha256(bytes, length, answer);
	return PAJURENDA_ACCEPTED;
}

/* Stands in for the library, which 25 to 27 ask about copies of the file: any answer. */
uint32_t pajurenda_read(const uint8_t *image, size_t length, uint8_t *answer, size_t answer_length)
{
	(void)length;
	(void)answer;
	(void)answer_length;
	return (uint32_t)(below(2) == 0 ? 25 + below(3) : image[0]);
}

/* The same for the call that tells 28 of an image that reads. */
uint32_t pajurenda_setting(const uint8_t *image, size_t length, uint64_t offset, uint64_t size, uint8_t *answer,
			   size_t answer_length)
{
	(void)offset;
	(void)size;
	return pajurenda_read(image, length, answer, answer_length);
}

/* The image cut somewhere and changed here and there, or random bytes of any small length. */
static struct bytes draw(const struct bytes *image)
{
	const int random = below(3) == 0;
	struct bytes bytes = { .length = random ? below(300) : below(below(2) == 0 ? 300 : image->length) };
	bytes.at = malloc(bytes.length == 0 ? 1 : bytes.length);
	if (bytes.at == NULL)
		exit(2);
	for (size_t i = 0; i < bytes.length; i++)
		bytes.at[i] = random ? draw_byte() : image->at[i];
	for (uint64_t i = below(8); i > 0 && bytes.length > 0; i--)
		bytes.at[below(bytes.length < 210 ? bytes.length : 210)] = draw_byte();
	return bytes;
}

/* The refusals of an owner list and of a sheet beside it. */
static void refuse_lists(const struct named *file, const struct named *other, const struct asked *asked)
{
	const struct owners owners = { .name = other->name, .list = other->bytes };
	refuse_range(&owners, below(below(2) == 0 ? 3 : SIZE_MAX / 16), below(65537));
	refuse_rest(&owners);
	refuse_caller(&owners, below(UINT64_MAX));
	refuse_byte(file, asked, below(below(2) == 0 ? 300 : UINT64_MAX), &owners, below(4));
}

/* Every refusal, whether or not it is this file's. */
static void refuse_all(const struct named *file, const struct named *other)
{
	uint8_t reading[PAJURENDA_READ_BYTES] = { 0 };
	const struct asked asked = { below(5), below(UINT64_MAX), below(500) };
	for (uint32_t number = 1; number <= 14; number++)
		refuse_image(number, number < 12 ? 0 : below(below(2) == 0 ? 5 : 1024), file);
	refuse_image(PAJURENDA_RESERVED, below(below(2) == 0 ? 5 : 1024), file);
	for (uint32_t number = PAJURENDA_MODULE; number <= PAJURENDA_READ_ONLY; number++)
		refuse_image(number, 0, file);
	for (uint32_t number = 30; number <= 33; number++)
		refuse_handoff(number, below(below(2) == 0 ? 300 : UINT64_MAX), file);
	refuse_sheet(file);
	refuse_identity(file, other, reading);
	refuse_entry(file, &asked, below(65537));
	refuse_lists(file, other, &asked);
	refuse_setting(file, &asked, below(65537));
	refuse_new_base(file, below(UINT64_MAX));
	begin_shipped_base(file, below(below(2) == 0 ? 300 : UINT64_MAX));
	(void)end_refusal();
	refuse_pair(file, other);
}

/* A whole small file. */
static struct bytes load_image(const char *name)
{
	struct bytes image = { .at = malloc(65536) };
	FILE *from = fopen(name, "rb");
	if (from == NULL || image.at == NULL)
		exit(2);
	image.length = fread(image.at, 1, 65536, from);
	fclose(from);
	return image;
}

int main(int count, char **word)
{
	static char room[65536];
	if (count != 4 || freopen("/dev/null", "w", stderr) == NULL || freopen("/dev/null", "w", stdout) == NULL)
		return 2;
	setvbuf(stderr, room, _IOFBF, sizeof room);
	const struct bytes image = load_image(word[1]);
	seed(strtoull(word[2], NULL, 10) + 88172645463325252u);
	for (unsigned long turn = strtoul(word[3], NULL, 10); turn > 0; turn--) {
		struct named file = { "file", draw(&image) }, other = { "other", draw(&image) };
		refuse_all(&file, &other);
		free(file.bytes.at);
		free(other.bytes.at);
	}
	free(image.at);
	return 0;
}
