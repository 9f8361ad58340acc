/* The makers of volumes, files and sections. */
#include "files.h"

#include <string.h>

/* The file system that files with sizes of 24 bits belong to, as stored. */
static const uint8_t file_system[16] = {
	0x78, 0xE5, 0x8C, 0x8C, 0x3D, 0x8A, 0x1C, 0x4F, 0x99, 0x35, 0x89, 0x61, 0x85, 0xC3, 0x2D, 0xD3,
};

/* Refusal 3: the header file's name as stored. */
static const uint8_t header_file[16] = {
	0xBE, 0x40, 0x27, 0x91, 0x84, 0x22, 0x34, 0x47, 0xB9, 0x71, 0x84, 0xB0, 0x27, 0x35, 0x3F, 0x0C,
};

/* Other people's tools read a volume only with bit 11 (erased bytes are 0xFF); the rest says it can be read, and is aligned to 16. */
#define ATTRIBUTES 0x0004FEFF

/* A number of some bytes at a position. */
void set_number(uint8_t *bytes, uint64_t at, unsigned width, uint64_t value)
{
	for (unsigned i = 0; i < width; i++)
		bytes[at + i] = (uint8_t)(value >> (8 * i));
}

/* A number of some bytes at a position. */
uint64_t number_in(const uint8_t *bytes, uint64_t at, unsigned width)
{
	uint64_t value = 0;
	for (unsigned i = 0; i < width; i++)
		value |= (uint64_t)bytes[at + i] << (8 * i);
	return value;
}

uint64_t upto4(uint64_t value)
{
	return (value + 3) / 4 * 4;
}

uint64_t upto8(uint64_t value)
{
	return (value + 7) / 8 * 8;
}

/* ---- the volume ---- */

/* One run of blocks that is as long as the volume, and the end of the runs; a longer header has more of its last byte's kind. */
static void make_blocks(uint8_t *image, uint64_t V)
{
	const uint64_t block = V % 4096 == 0 ? 4096 : 1;
	set_number(image, 56, 4, V / block);
	set_number(image, 60, 4, block);
	set_number(image, 64, 8, 0);
}

/* Refusal 2: V, the mark, h, x and e, with all that stands between them. */
void make_volume(uint8_t *image, uint64_t V, uint64_t h, uint64_t x, uint64_t e)
{
	memcpy(image + 16, file_system, 16);
	set_number(image, 32, 8, V);
	memcpy(image + 40, "_FVH", 4);
	set_number(image, 44, 4, ATTRIBUTES);
	set_number(image, 48, 2, h);
	set_number(image, 52, 2, x);
	image[54] = 0;
	image[55] = 2;
	make_blocks(image, V);
	if (x != 0)
		set_number(image, x + 16, 4, e);
}

/* Refusal 2: the sum; an odd h is rounded up or down, so that either misreading shows. */
void sum_volume(uint8_t *image, uint64_t length)
{
	uint64_t sum = 0, h = number_in(image, 48, 2);
	h += h % 4 == 1 ? 1 : 0;
	set_number(image, 50, 2, 0);
	for (uint64_t i = 0; i + 2 <= h && i + 2 <= length; i += 2)
		sum += number_in(image, i, 2);
	set_number(image, 50, 2, 0 - sum);
}

/* ---- files and sections ---- */

/* A name of its own for each number. */
static void make_name(uint8_t *at, uint64_t name)
{
	if (name == NAME_HEADER_FILE) {
		memcpy(at, header_file, 16);
		return;
	}
	if (name == NAME_PAD) {
		memset(at, 0xFF, 16);
		return;
	}
	set_number(at, 0, 8, name * UINT64_C(0x9E3779B97F4A7C15));
	set_number(at, 8, 8, (name + 7) * UINT64_C(0xD1B54A32D192ED03));
}

/* Refusals 3 and 25: the header; the body's check byte is the fixed one of files that don't have it summed. */
void make_file(uint8_t *image, uint64_t at, uint64_t size, unsigned type, uint64_t name)
{
	make_name(image + at, name);
	image[at + 17] = 0xAA;
	image[at + 18] = (uint8_t)type;
	image[at + 19] = 0;
	set_number(image, at + 20, 3, size);
	image[at + 23] = 0xF8;
	sum_file(image, at);
}

/* Refusals 3 and 25: the sum, which leaves out the body's check byte and the state. */
void sum_file(uint8_t *image, uint64_t at)
{
	uint64_t sum = 0;
	for (uint64_t i = 0; i < FILE_HEADER; i++)
		if (i != 16 && i != 17 && i != 23)
			sum += image[at + i];
	image[at + 16] = (uint8_t)(0 - sum);
}

/* Refusals 4 and 25: size and type. */
void make_section(uint8_t *image, uint64_t at, uint64_t size, unsigned type)
{
	set_number(image, at, 3, size);
	image[at + 3] = (uint8_t)type;
}
