/* The worst images that we know of: accepted ones, so that every pass goes through all of them. */
#include <stdlib.h>
#include <string.h>

#include "files.h"
#include "large_parts.h"
#include "module.h"

#define ROWS UINT64_C(65535)
#define PAGE UINT64_C(4096)

/* One module that fills the rest of the volume: what is written of it, where its data is and where its blocks are. */
struct vast {
	struct module m;
	uint8_t *at;
	uint64_t room, data, blocks, pages;
};

/* ---- one vast module ---- */

/* A file with one section to the volume's end; its module has so many section headers, of which the last has all of it. */
static void vast_start(struct vast *v, struct large *large, uint8_t *image, enum kind kind, uint64_t rows)
{
	const uint64_t file = large_start(large, image), size = large->length - file;
	make_file(image, file, size, TYPE_PEIM, 16);
	make_section(image, file + FILE_HEADER, size - FILE_HEADER, holder_of(kind));
	large->module = file + FILE_HEADER + SECTION_HEADER;
	large->modules = 1;
	v->at = image + large->module;
	v->room = large->length - large->module;
	memset(v->at, 0, v->room);
	start_module(&v->m, kind);
	v->m.rows = rows;
	v->m.stripped = TE_HEADER;
	lay_head(&v->m, 0);
	v->m.size = v->room;
	v->data = upto8(v->m.data);
}

/* The headers; the last section header has every byte of the module at its own place, those before it have no data. */
static void vast_end(struct vast *v, uint64_t directory, uint64_t size)
{
	v->m.directory = directory;
	v->m.directory_size = size;
	memset(v->m.row, 0, sizeof v->m.row);
	make_module(&v->m, v->at);
	if (v->m.kind == KIND_TE || v->m.rows == 0)
		return;
	uint8_t *row = v->at + v->m.table + ROW * (v->m.rows - 1);
	set_number(row, 8, 4, v->room);
	set_number(row, 16, 4, v->room);
}

/* How many pages of 1,024 words fit with their blocks; the words first, from a whole page on, then the blocks. */
static void vast_pages(struct vast *v, struct large *large)
{
	const uint64_t first = (v->data + PAGE - 1) / PAGE * PAGE, block = 8 + 2 * 1024;
	if (v->room < first + PAGE + block)
		large_fails("pages");
	v->pages = (v->room - first) / (PAGE + block);
	v->data = first;
	v->blocks = first + v->pages * PAGE;
	large->words = 1024 * v->pages;
}

/* Block i is that of a page; its entries in this order. */
static void vast_block(struct vast *v, uint64_t i, uint64_t page, const uint64_t *order)
{
	uint8_t *block = v->at + v->blocks + i * (8 + 2 * 1024);
	set_number(block, 0, 4, v->data + page * PAGE);
	set_number(block, 4, 4, 8 + 2 * 1024);
	for (uint64_t k = 0; k < 1024; k++)
		set_number(block, 8 + 2 * k, 2, ENTRY_WORD << 12 | 4 * order[k]);
}

/* Words that touch each other in whole pages: as they stand (0), the other way round (1), in no order (2), every second first (3). */
static void fill_pages(struct vast *v, struct large *large, unsigned order)
{
	uint64_t *page = malloc((v->room / PAGE + 1) * sizeof *page), word[1024], state = 7;
	if (page == NULL)
		large_fails("pages in memory");
	vast_pages(v, large);
	for (uint64_t i = 0; i < v->pages; i++)
		page[i] = order == 1 ? v->pages - 1 - i : i;
	for (uint64_t k = 0; k < 1024; k++)
		word[k] = order == 1 ? 1023 - k : order == 3 ? (2 * k) % 1024 + (2 * k) / 1024 : k;
	if (order == 2)
		large_shuffle(&state, page, v->pages);
	for (uint64_t i = 0; i < v->pages; i++) {
		if (order == 2)
			large_shuffle(&state, word, 1024);
		vast_block(v, i, page[i], word);
	}
	free(page);
	vast_end(v, v->blocks, v->pages * (8 + 2 * 1024));
}

static void pages_of(struct large *large, uint8_t *image, enum kind kind, uint64_t rows, unsigned order)
{
	struct vast v;
	vast_start(&v, large, image, kind, rows);
	fill_pages(&v, large, order);
}

static void make_ascending(struct large *large, uint8_t *image)
{
	pages_of(large, image, KIND_TE, 0, 0);
}

static void make_descending(struct large *large, uint8_t *image)
{
	pages_of(large, image, KIND_TE, 0, 1);
}

static void make_shuffled(struct large *large, uint8_t *image)
{
	pages_of(large, image, KIND_TE, 0, 2);
}

static void make_runs(struct large *large, uint8_t *image)
{
	pages_of(large, image, KIND_TE, 0, 3);
}

static void make_rows(struct large *large, uint8_t *image)
{
	pages_of(large, image, KIND_PE64, ROWS, 0);
}

static void make_rows_shuffled(struct large *large, uint8_t *image)
{
	pages_of(large, image, KIND_PE64, ROWS, 2);
}

/* Every word has a block of its own, and the blocks are in no order over the whole module. */
static void make_lone(struct large *large, uint8_t *image)
{
	struct vast v;
	uint64_t state = 11;
	vast_start(&v, large, image, KIND_TE, 0);
	const uint64_t words = (v.room - v.data) / 16;
	uint64_t *word = malloc(words * sizeof *word);
	if (word == NULL)
		large_fails("words in memory");
	v.blocks = v.data + 4 * words;
	for (uint64_t i = 0; i < words; i++)
		word[i] = v.data + 4 * i;
	large_shuffle(&state, word, words);
	for (uint64_t i = 0; i < words; i++) {
		uint8_t *block = v.at + v.blocks + 12 * i;
		set_number(block, 0, 4, word[i] / PAGE * PAGE);
		set_number(block, 4, 4, 12);
		set_number(block, 8, 2, ENTRY_WORD << 12 | word[i] % PAGE);
	}
	free(word);
	large->words = words;
	vast_end(&v, v.blocks, 12 * words);
}

/* Nothing but blocks without entries. */
static void make_empty_blocks(struct large *large, uint8_t *image)
{
	struct vast v;
	vast_start(&v, large, image, KIND_TE, 0);
	const uint64_t count = (v.room - v.data) / 8;
	for (uint64_t i = 0; i < count; i++)
		set_number(v.at, v.data + 8 * i + 4, 4, 8);
	vast_end(&v, v.data, 8 * count);
}

/* One block with nothing but entries to skip. */
static void make_skipped(struct large *large, uint8_t *image)
{
	struct vast v;
	vast_start(&v, large, image, KIND_TE, 0);
	const uint64_t size = (v.room - v.data) / 4 * 4;
	set_number(v.at, v.data + 4, 4, size);
	vast_end(&v, v.data, size);
}

/* ---- blocks that are read again and again ---- */

/* All section headers but the first have the same 64 KiB of the file, each at an address of its own: 65,535 of them take the directory
   through 4 GiB. */
static void fold(struct large *large, uint8_t *image, uint64_t rows, uint64_t block)
{
	struct vast v;
	vast_start(&v, large, image, KIND_PE64, rows);
	if (v.room < v.data + 65536)
		large_fails("folded data");
	for (uint64_t at = 0; at + block <= 65536; at += block)
		set_number(v.at, v.data + at + 4, 4, block);
	vast_end(&v, 65536, (rows - 1) * 65536);
	for (uint64_t i = 1; i < rows; i++) {
		uint8_t *row = v.at + v.m.table + ROW * i;
		set_number(row, 8, 4, 65536);
		set_number(row, 12, 4, 65536 * i);
		set_number(row, 16, 4, 65536);
		set_number(row, 20, 4, v.data);
	}
}

static void make_folded_few(struct large *large, uint8_t *image)
{
	fold(large, image, 65, 8);
}

static void make_folded_blocks(struct large *large, uint8_t *image)
{
	fold(large, image, ROWS, 8);
}

static void make_folded_entries(struct large *large, uint8_t *image)
{
	fold(large, image, ROWS, 65536);
}

/* ---- many small parts ---- */

/* Nothing but a free end. */
static void make_free(struct large *large, uint8_t *image)
{
	large_end(large, image, large_start(large, image));
}

/* Raw files of 24 bytes up to the volume's end. */
static void make_files(struct large *large, uint8_t *image)
{
	uint64_t at = large_start(large, image), i = 0;
	for (; at + FILE_HEADER <= large->length; at += FILE_HEADER)
		make_file(image, at, FILE_HEADER, i % 2 == 0 ? TYPE_RAW : TYPE_PAD, i % 2 == 0 ? 16 + i : NAME_PAD), i++;
	large_end(large, image, at);
}

/* One file of empty sections. */
static void make_sections(struct large *large, uint8_t *image)
{
	const uint64_t file = large_start(large, image), size = (large->length - file) / 4 * 4;
	make_file(image, file, size, TYPE_FREEFORM, 16);
	for (uint64_t at = file + FILE_HEADER; at < file + size; at += SECTION_HEADER)
		make_section(image, at, SECTION_HEADER, HOLDS_RAW);
	large_end(large, image, file + size);
}

/* Files of one TE module without section headers and relocations: as many image bases as there can be. */
static void make_bases(struct large *large, uint8_t *image)
{
	static struct module m;
	const uint64_t size = FILE_HEADER + SECTION_HEADER + TE_HEADER;
	uint64_t at = large_start(large, image), i = 0;
	start_module(&m, KIND_TE);
	m.rows = 0;
	lay_head(&m, 0);
	for (; at + size <= large->length; at = upto8(at + size)) {
		make_file(image, at, size, TYPE_PEIM, 16 + i++);
		make_section(image, at + FILE_HEADER, SECTION_HEADER + TE_HEADER, HOLDS_TE);
		make_module(&m, image + at + FILE_HEADER + SECTION_HEADER);
		large->module = at + FILE_HEADER + SECTION_HEADER;
	}
	large->modules = i;
	large_end(large, image, at < large->length ? at : large->length);
}

/* Modules of 1,024 words each, in no order: the scan of one module is short, and there are many of them. */
static void make_many_shuffled(struct large *large, uint8_t *image)
{
	const uint64_t modules = large->length / 16384;
	large_modules(large, image, modules, 1000 * modules, true);
}

const struct hostile hostile[] = {
	{ "words in whole pages, ascending", make_ascending, COST_PLAIN },
	{ "words in whole pages, descending", make_descending, COST_PLAIN },
	{ "words in whole pages, no order", make_shuffled, COST_PLAIN },
	{ "words in whole pages, two runs each", make_runs, COST_PLAIN },
	{ "a block for each word, no order", make_lone, COST_PLAIN },
	{ "blocks without entries", make_empty_blocks, COST_PLAIN },
	{ "one block of entries to skip", make_skipped, COST_PLAIN },
	{ "free end", make_free, COST_PLAIN },
	{ "files of 24 bytes", make_files, COST_PLAIN },
	{ "sections of 4 bytes", make_sections, COST_PLAIN },
	{ "modules without words", make_bases, COST_PLAIN },
	{ "modules of 1,000 words, no order", make_many_shuffled, COST_PLAIN },
	{ "65 section headers over the same blocks without entries", make_folded_few, COST_PLAIN },
	{ "65,535 section headers, words ascending", make_rows, COST_LONG },
	{ "65,535 section headers, words in no order", make_rows_shuffled, COST_LONG },
	{ "65,535 section headers over the same blocks without entries", make_folded_blocks, COST_ENDLESS },
	{ "65,535 section headers over the same entries to skip", make_folded_entries, COST_ENDLESS },
};

const unsigned hostiles = sizeof hostile / sizeof hostile[0];
