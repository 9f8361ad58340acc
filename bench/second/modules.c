#include "modules.h"

#include <stdlib.h>
#include <string.h>

#include "numbers.h"

#define FILE_HEADER 24
#define FILE_RAW 0x01
#define FILE_PAD 0xF0
#define SECTION_HEADER 4
#define SECTION_PE32 0x10
#define SECTION_TE 0x12
#define FIRST_HEADER 64
#define COFF_HEADER 24
#define TE_HEADER 40
#define TABLE_ENTRY 40
#define KIND_PE32 0x10B
#define KIND_PE32_PLUS 0x20B
#define RELOCATIONS 5
#define BLOCK_HEADER 8

/* #107: where a relative address lies in the image, where the bytes from there on end, and from which address on to look anew. */
struct spot {
	uint64_t place, end, until;
};

/* #107: a relocation block, its page being a relative address; so many bytes of the directory went before it. */
struct block {
	uint64_t used;
	struct spot spot;
	uint64_t size, page;
};

/* A list of things of one size has room for one more; nobody goes on without memory. */
static void *with_room(void *list, uint64_t count, uint64_t *room, uint64_t size)
{
	if (count < *room)
		return list;
	*room = 2 * *room + 64;
	list = realloc(list, *room * size);
	if (list == NULL)
		abort();
	return list;
}

/* "Moving", #107: the words come in the order in which they are added. */
void second_modules_word(struct modules *m, uint64_t place, uint64_t width)
{
	m->word = with_room(m->word, m->words, &m->words_room, sizeof *m->word);
	m->word[m->words++] = (struct second_word){ .place = place, .width = width };
}

/* #107: what was asked for goes back. */
void second_modules_free(struct modules *m)
{
	free(m->marks);
	free(m->module);
	free(m->word);
	*m = (struct modules){ .marks = NULL };
}

/* Refusal 25: headers, blocks and free end have no byte in the configuration region. */
static bool in_region(const struct modules *m, uint64_t from, uint64_t to)
{
	return from < to && from < m->c + m->z && m->c < to;
}

/* Refusal 26: no moved word has one of the bytes from..to-1. */
static void mark(struct modules *m, uint64_t from, uint64_t to)
{
	memset(m->marks + from, 1, to - from);
}

/* Refusals 25 and 26: a header or block or the free end, inside the image; true where it is in the region. */
static bool keep(struct modules *m, uint64_t from, uint64_t to)
{
	mark(m, from, to);
	return in_region(m, from, to);
}

/* PE/COFF: a number of a module, its bytes counted from the module's first. */
static uint64_t number_of(const struct modules *m, const struct module *d, uint64_t at, uint64_t width)
{
	return little(m->image, d->shown.place + at, width);
}

/* Refusal 25: the letters of a signature stand in a module. */
static bool signed_with(const struct modules *m, const struct module *d, uint64_t at,
			const char *letters, uint64_t count)
{
	return memcmp(m->image + d->shown.place + at, letters, count) == 0;
}

/* Refusal 25: a header inside a module, except for the image base's bytes, which only other headers keep. */
static bool keep_around_base(struct modules *m, const struct module *d, uint64_t from, uint64_t to)
{
	const uint64_t base = d->shown.base_place;
	mark(m, from, base);
	mark(m, base + d->shown.base_width, to);
	return in_region(m, from, to);
}

/* PE/COFF: where a section's data begins, counted from the module's first byte; a TE module has lost bytes before it. */
static bool data_begins(const struct module *d, uint64_t pointer, uint64_t *begin)
{
	*begin = pointer;
	if (d->shown.kind == SECTION_PE32)
		return true;
	if (pointer + TE_HEADER < d->stripped)
		return false;
	*begin = pointer + TE_HEADER - d->stripped;
	return true;
}

/* Refusal 25: the data of each section lies in the module; a section of no bytes has none. */
static bool refuse_data(const struct modules *m, const struct module *d)
{
	for (uint64_t i = 0; i < d->sections; i++) {
		const uint64_t at = d->table + TABLE_ENTRY * i;
		const uint64_t size = little(m->image, at + 16, 4);
		const uint64_t pointer = little(m->image, at + 20, 4);
		uint64_t begin = 0;
		if (size == 0)
			continue;
		if (!data_begins(d, pointer, &begin) || begin + size > d->shown.size)
			return true;
	}
	return false;
}

/* Refusal 25: the section headers lie in the module from a byte of it on, and are kept. */
static bool refuse_table(struct modules *m, struct module *d, uint64_t from)
{
	if (from + TABLE_ENTRY * d->sections > d->shown.size)
		return true;
	d->table = d->shown.place + from;
	return keep(m, d->table, d->table + TABLE_ENTRY * d->sections) || refuse_data(m, d);
}

/* PE/COFF: by an optional header's kind its fixed part's size, the image base's place and width; 0 for another kind. */
static uint64_t fixed_part(uint64_t kind, uint64_t *base, uint64_t *width)
{
	*base = kind == KIND_PE32 ? 28 : 24;
	*width = kind == KIND_PE32 ? 4 : 8;
	if (kind == KIND_PE32)
		return 96;
	return kind == KIND_PE32_PLUS ? 112 : 0;
}

/* Refusal 25: the optional header from a byte of the module on; all directories that it counts lie in its size. */
static bool refuse_optional(struct modules *m, struct module *d, uint64_t from, uint64_t size)
{
	uint64_t base = 0, width = 0;
	if (size < 2 || from + size > d->shown.size)
		return true;
	const uint64_t fixed = fixed_part(number_of(m, d, from, 2), &base, &width);
	if (fixed == 0 || fixed > size)
		return true;
	const uint64_t directories = number_of(m, d, from + fixed - 4, 4);
	if (fixed + 8 * directories > size)
		return true;
	d->shown.base_place = d->shown.place + from + base;
	d->shown.base_width = width;
	if (directories > RELOCATIONS) {
		d->address = number_of(m, d, from + fixed + 8 * RELOCATIONS, 4);
		d->used_up = number_of(m, d, from + fixed + 8 * RELOCATIONS + 4, 4);
	}
	return keep_around_base(m, d, d->shown.place + from, d->shown.place + from + size);
}

/* Refusal 25: the headers of a PE32 section's module. */
static bool refuse_pe32(struct modules *m, struct module *d)
{
	if (d->shown.size < FIRST_HEADER || !signed_with(m, d, 0, "MZ", 2))
		return true;
	const uint64_t e = number_of(m, d, FIRST_HEADER - 4, 4);
	if (e + COFF_HEADER > d->shown.size || !signed_with(m, d, e, "PE\0\0", 4))
		return true;
	if (keep(m, d->shown.place, d->shown.place + FIRST_HEADER) ||
	    keep(m, d->shown.place + e, d->shown.place + e + COFF_HEADER))
		return true;
	const uint64_t optional = number_of(m, d, e + 20, 2);
	d->sections = number_of(m, d, e + 6, 2);
	return refuse_optional(m, d, e + COFF_HEADER, optional) ||
	       refuse_table(m, d, e + COFF_HEADER + optional);
}

/* Refusal 25: the headers of a TE section's module. */
static bool refuse_te(struct modules *m, struct module *d)
{
	if (d->shown.size < TE_HEADER || !signed_with(m, d, 0, "VZ", 2))
		return true;
	d->sections = number_of(m, d, 4, 1);
	d->stripped = number_of(m, d, 6, 2);
	d->shown.base_place = d->shown.place + 16;
	d->shown.base_width = 8;
	d->address = number_of(m, d, 24, 4);
	d->used_up = number_of(m, d, 28, 4);
	return keep_around_base(m, d, d->shown.place, d->shown.place + TE_HEADER) ||
	       refuse_table(m, d, TE_HEADER);
}

/*
 * #107, PE32: the first section in the table whose data has the address whole; its virtual size isn't
 * looked at. It stays the first until it ends or one that stands before it in the table begins.
 */
static bool find_in_table(const struct modules *m, const struct module *d, uint64_t address,
			  uint64_t width, struct spot *spot)
{
	uint64_t until = UINT64_MAX;
	for (uint64_t i = 0; i < d->sections; i++) {
		const uint64_t at = d->table + TABLE_ENTRY * i;
		const uint64_t start = little(m->image, at + 12, 4);
		const uint64_t size = little(m->image, at + 16, 4);
		const uint64_t data = d->shown.place + little(m->image, at + 20, 4);
		if (address < start && start < until)
			until = start;
		if (address < start || address + width > start + size)
			continue;
		if (start + size - width + 1 < until)
			until = start + size - width + 1;
		*spot = (struct spot){ .place = data + address - start, .end = data + size, .until = until };
		return true;
	}
	return false;
}

/* #107, TE: an address less StrippedSize plus 40, anywhere in the module; asked anew for every address. */
static bool find_in_module(const struct module *d, uint64_t address, uint64_t width, struct spot *spot)
{
	if (address + TE_HEADER < d->stripped)
		return false;
	const uint64_t at = address + TE_HEADER - d->stripped;
	if (at + width > d->shown.size)
		return false;
	*spot = (struct spot){ .place = d->shown.place + at, .end = d->shown.place + d->shown.size };
	return true;
}

/* #107: where the bytes of a relative address lie; false where they are outside. Nothing wraps. */
static bool find(const struct modules *m, const struct module *d, uint64_t address,
		 uint64_t width, struct spot *spot)
{
	if (d->shown.kind == SECTION_PE32)
		return find_in_table(m, d, address, width, spot);
	return find_in_module(d, address, width, spot);
}

/*
 * Refusal 25: the block so many bytes into the directory, found by its first 8 bytes; false where it
 * is at fault. It follows the one before in the same section's data as long as no other section
 * comes first: a hostile directory may ask for 2^29 blocks, too many for a search each.
 */
static bool block_at(const struct modules *m, const struct module *d, struct block *block)
{
	struct spot *spot = &block->spot;
	const uint64_t address = d->address + block->used;
	if (address < spot->until)
		spot->place += block->size;
	else if (!find(m, d, address, BLOCK_HEADER, spot))
		return false;
	block->page = little(m->image, spot->place, 4);
	block->size = little(m->image, spot->place + 4, 4);
	return block->size >= BLOCK_HEADER && block->size % 4 == 0 &&
	       block->size <= spot->end - spot->place;
}

/* Refusal 25: all blocks of a module, none in the region; each takes at least 8 bytes of the directory's size. */
static bool refuse_blocks(struct modules *m, const struct module *d)
{
	struct block block = { .used = 0 };
	for (; block.used < d->used_up; block.used += block.size)
		if (!block_at(m, d, &block) || keep(m, block.spot.place, block.spot.place + block.size))
			return true;
	return false;
}

/* Refusal 25: one module, kept for the passes after this one. */
static bool refuse_module(struct modules *m, struct module *d)
{
	if (d->shown.kind == SECTION_PE32 ? refuse_pe32(m, d) : refuse_te(m, d))
		return true;
	if (refuse_blocks(m, d))
		return true;
	m->module = with_room(m->module, m->count, &m->room, sizeof *m->module);
	m->module[m->count++] = *d;
	return false;
}

/* Refusal 25: the section at a place of a file that ends at `end`; its size comes back. */
static bool refuse_section(struct modules *m, uint64_t file, uint64_t at, uint64_t end, uint64_t *size)
{
	if (at + SECTION_HEADER > end)
		return true;
	*size = little(m->image, at, 3);
	if (*size < SECTION_HEADER || at + *size > end || keep(m, at, at + SECTION_HEADER))
		return true;
	struct module d = { .shown = {
		.file = file,
		.section = at,
		.kind = m->image[at + 3],
		.place = at + SECTION_HEADER,
		.size = *size - SECTION_HEADER,
	} };
	if (d.shown.kind != SECTION_PE32 && d.shown.kind != SECTION_TE)
		return false;
	return refuse_module(m, &d);
}

/* Refusal 25: the sections of a file, each at the next multiple of 4; files begin at multiples of 8. */
static bool refuse_sections(struct modules *m, uint64_t file, uint64_t end)
{
	uint64_t size = 0;
	for (uint64_t at = file + FILE_HEADER; at < end; at = (at + size + 3) / 4 * 4)
		if (refuse_section(m, file, at, end, &size))
			return true;
	return false;
}

/* Refusal 25 by rule 3: the header bytes but those at 17 and 23, modulo 256. */
static uint64_t header_sum(const uint8_t *header)
{
	uint64_t sum = 0;
	for (uint64_t i = 0; i < FILE_HEADER; i++)
		sum += i == 17 || i == 23 ? 0 : header[i];
	return sum % 256;
}

/* Refusal 25 by rule 3, whatever the name, with a size from 24 on, which comes back. */
static bool refuse_file(struct modules *m, uint64_t at, uint64_t *size)
{
	if (at + FILE_HEADER > m->V)
		return true;
	if (m->image[at + 19] % 2 == 1 || header_sum(m->image + at) != 0)
		return true;
	*size = little(m->image, at + 20, 3);
	if (*size < FILE_HEADER || at + *size > m->V || keep(m, at, at + FILE_HEADER))
		return true;
	const uint8_t type = m->image[at + 18];
	if (type == FILE_RAW || type == FILE_PAD)
		return false;
	return refuse_sections(m, at, at + *size);
}

/* #107, the free end: from here to the volume's end there are only 0xFF bytes. */
static bool only_free(const struct modules *m, uint64_t at)
{
	for (; at < m->V; at++)
		if (m->image[at] != 0xFF)
			return false;
	return true;
}

/* Refusal 25: the files from the header file on, each at the next multiple of 8, to the volume's or the free end. */
static bool refuse_files(struct modules *m)
{
	uint64_t size = 0;
	for (uint64_t at = m->f; at < m->V; at = (at + size + 7) / 8 * 8) {
		if (only_free(m, at))
			return keep(m, at, m->V);
		if (refuse_file(m, at, &size))
			return true;
	}
	return false;
}

/* Refusal 25, with the marks that 26 asks for: below E and the region have theirs from the start. */
bool second_modules_refused(struct modules *m)
{
	m->marks = calloc(m->length, 1);
	if (m->marks == NULL)
		abort();
	mark(m, 0, m->E);
	mark(m, m->c, m->c + m->z);
	return refuse_files(m);
}

/* Refusal 26: a byte of the word is kept or is another word's; if not, they are this word's from now on. */
static bool refuse_word(struct modules *m, uint64_t place, uint64_t width)
{
	for (uint64_t i = 0; i < width; i++)
		if (m->marks[place + i] != 0)
			return true;
	mark(m, place, place + width);
	return false;
}

/* Refusal 26: a word of a module; only one with bytes of its own joins the list, which so never outgrows the image. */
static bool refuse_own_word(struct modules *m, uint64_t place, uint64_t width)
{
	if (refuse_word(m, place, width))
		return true;
	second_modules_word(m, place, width);
	return false;
}

/* #107: the relocation type of an entry, its top four bits. */
static uint64_t type_of(uint64_t entry)
{
	return entry / 4096;
}

/* #107: how wide a word of a type is; 0 where there is no word. */
static uint64_t width_of(uint64_t type)
{
	if (type == 3)
		return 4;
	return type == 10 ? 8 : 0;
}

/* Refusal 26: the words of a block; one that lies in no section's data is outside its module. */
static bool refuse_block_words(struct modules *m, struct module *d, const struct block *block)
{
	struct spot spot;
	for (uint64_t at = BLOCK_HEADER; at < block->size; at += 2) {
		const uint64_t entry = little(m->image, block->spot.place + at, 2);
		const uint64_t width = width_of(type_of(entry));
		if (width == 0)
			continue;
		if (!find(m, d, block->page + entry % 4096, width, &spot) ||
		    refuse_own_word(m, spot.place, width))
			return true;
		d->shown.words++;
	}
	return false;
}

/* Refusal 26: a module's image base, then the words of its blocks. */
static bool refuse_module_words(struct modules *m, struct module *d)
{
	struct block block = { .used = 0 };
	if (refuse_own_word(m, d->shown.base_place, d->shown.base_width))
		return true;
	for (; block.used < d->used_up; block.used += block.size)
		if (!block_at(m, d, &block) || refuse_block_words(m, d, &block))
			return true;
	return false;
}

/* Refusal 26: the patch words, then the modules' words; the base word has its place below E by itself. */
bool second_modules_overlap(struct modules *m)
{
	for (uint64_t i = 1; i < m->words; i++)
		if (refuse_word(m, m->word[i].place, m->word[i].width))
			return true;
	for (uint64_t i = 0; i < m->count; i++)
		if (refuse_module_words(m, &m->module[i]))
			return true;
	return false;
}

/* Refusal 27: an entry of a block with another type than 0, 3 and 10; every entry is one slot. */
static bool refuse_block_types(const struct modules *m, const struct block *block)
{
	for (uint64_t at = BLOCK_HEADER; at < block->size; at += 2) {
		const uint64_t type = type_of(little(m->image, block->spot.place + at, 2));
		if (type != 0 && width_of(type) == 0)
			return true;
	}
	return false;
}

/* Refusal 27. */
bool second_modules_types(const struct modules *m)
{
	for (uint64_t i = 0; i < m->count; i++) {
		const struct module *d = &m->module[i];
		struct block block = { .used = 0 };
		for (; block.used < d->used_up; block.used += block.size)
			if (!block_at(m, d, &block) || refuse_block_types(m, &block))
				return true;
	}
	return false;
}
