/* The makers of large images: the volume up to the modules, and many modules of a usual size. */
#include "large.h"

#include <stdio.h>
#include <stdlib.h>
#include <string.h>

#include "files.h"
#include "large_parts.h"
#include "module.h"

/* The usual identity; the region has more than a sheet's 256 settings want. */
void plan_large(struct large *large, uint64_t length, uint64_t patches)
{
	memset(large, 0, sizeof *large);
	large->length = length;
	large->patches = patches;
	large->z = 4096;
	large->base = 0xF0000000;
	large->identity = UINT64_C(0x31302D5441455254);
	large->revision = 0x01020304;
	large->extended = 0x0102;
}

/* An image that isn't as planned ends the program. */
void large_fails(const char *what)
{
	fprintf(stderr, "make: a large image without room for its %s\n", what);
	exit(2);
}

/* ---- the volume's start ---- */

/* The header and the patch table, whose words are the last but the first four bytes of the words' file, each four bytes from the next. */
static void put_header(const struct large *large, uint8_t *image, uint64_t first_word)
{
	const uint64_t H = large->H, p = H + 80;
	memcpy(image + H, "FSPH", 4);
	set_number(image, H + 4, 4, 80);
	image[H + 11] = 6;
	set_number(image, H + 12, 4, large->revision);
	set_number(image, H + 16, 8, large->identity);
	set_number(image, H + 24, 4, large->length);
	set_number(image, H + 28, 4, large->base);
	set_number(image, H + 34, 2, 0x3000);
	set_number(image, H + 36, 4, large->c);
	set_number(image, H + 40, 4, large->z);
	set_number(image, H + 76, 2, large->extended);
	memcpy(image + p, "FSPP", 4);
	set_number(image, p + 4, 2, 12 + 4 * large->patches);
	image[p + 6] = 1;
	set_number(image, p + 8, 4, large->patches);
	for (uint64_t k = 0; k < large->patches; k++)
		set_number(image, p + 12 + 4 * k, 4, first_word + 8 * k);
}

/* Header file, region's file, the patch words' file; gives the place of the next file. */
uint64_t large_start(struct large *large, uint8_t *image)
{
	const uint64_t f = VOLUME_HEADER;
	large->H = f + FILE_HEADER + SECTION_HEADER;
	large->E = large->H + 80 + 12 + 4 * large->patches;
	const uint64_t region = upto8(large->E), words = upto8(region + FILE_HEADER + large->z);
	const uint64_t next = words + FILE_HEADER + 8 * large->patches;
	large->c = region + FILE_HEADER;
	if (next > large->length)
		large_fails("tables");
	memset(image, 0, next);
	put_header(large, image, words + FILE_HEADER);
	make_volume(image, large->length, VOLUME_HEADER, 0, 0);
	sum_volume(image, large->length);
	make_file(image, f, large->E - f, TYPE_FREEFORM, NAME_HEADER_FILE);
	make_section(image, f + FILE_HEADER, large->E - f - FILE_HEADER, HOLDS_RAW);
	make_file(image, region, FILE_HEADER + large->z, TYPE_RAW, 1);
	image[large->c + 6] = '_';
	image[large->c + 7] = 'S';
	make_file(image, words, next - words, TYPE_RAW, 2);
	return next;
}

/* The rest of the volume is free. */
void large_end(const struct large *large, uint8_t *image, uint64_t at)
{
	if (at > large->length)
		large_fails("modules");
	memset(image + at, 0xFF, large->length - at);
}

/* ---- many modules ---- */

/* A sequence of its own, so that an image is the same wherever it is made. */
uint64_t large_number(uint64_t *state, uint64_t bound)
{
	*state ^= *state >> 12;
	*state ^= *state << 25;
	*state ^= *state >> 27;
	return (*state * UINT64_C(2685821657736338717) >> 16) % bound;
}

/* Entries from..to-1 of a list in no order. */
void large_shuffle(uint64_t *state, uint64_t *list, uint64_t count)
{
	for (uint64_t i = count; i > 1; i--) {
		const uint64_t other = large_number(state, i), kept = list[other];
		list[other] = list[i - 1];
		list[i - 1] = kept;
	}
}

/* The places of one page shuffled, page by page: a block holds one page's words. */
static void shuffle_pages(const struct module *m, uint64_t *place, uint64_t count, uint64_t *state)
{
	uint64_t from = 0;
	while (from < count) {
		uint64_t to = from;
		while (to < count && rva_of(m, place[to]) / 4096 == rva_of(m, place[from]) / 4096)
			to++;
		large_shuffle(state, place + from, to - from);
		from = to;
	}
}

/* One module of so many bytes and words; every fourth word has eight bytes where the kind has such. */
static void usual_size(struct module *m, enum kind kind, uint64_t size, uint64_t words, bool shuffled)
{
	static uint64_t place[MODULE_BLOCKS / 2];
	uint64_t state = size + words + kind;
	start_module(m, kind);
	m->base = 0xF0000000;
	lay_head(m, 0);
	const uint64_t most = 2 * words + 8 * (size / 4096 + 2) + 4;
	if (most > MODULE_BLOCKS || size < m->data + most + 8 * words)
		large_fails("words");
	const uint64_t data_size = (size - m->data - most) / 4 * 4, step = words == 0 ? 8 : data_size / words;
	lay_head(m, data_size);
	for (uint64_t i = 0; i < words; i++)
		place[i] = m->data + i * step;
	if (shuffled)
		shuffle_pages(m, place, words, &state);
	for (uint64_t i = 0; i < words; i++)
		add_word(m, kind != KIND_PE32 && place[i] % 4 == 0 ? 8 : 4, place[i]);
	lay_blocks(m);
}

/* As many files as modules, all of about the same size; what is left is free. */
void large_modules(struct large *large, uint8_t *image, uint64_t modules, uint64_t words, bool shuffled)
{
	static struct module m;
	uint64_t at = large_start(large, image);
	const uint64_t each = (large->length - at) / modules / 8 * 8;
	large->modules = modules;
	large->words = words;
	for (uint64_t i = 0; i < modules; i++) {
		const uint64_t share = words * (i + 1) / modules - words * i / modules;
		usual_size(&m, (enum kind)(i % KINDS), each - FILE_HEADER - SECTION_HEADER - 8, share, shuffled);
		const uint64_t size = SECTION_HEADER + m.size;
		memset(image + at, 0x5A, each);
		make_file(image, at, FILE_HEADER + size, TYPE_PEIM, 16 + i);
		make_section(image, at + FILE_HEADER, size, holder_of(m.kind));
		large->module = at + FILE_HEADER + SECTION_HEADER;
		make_module(&m, image + large->module);
		at = upto8(at + FILE_HEADER + size);
	}
	large_end(large, image, at);
}
