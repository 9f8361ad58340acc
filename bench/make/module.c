/* The maker of modules. */
#include "module.h"

#include <stdio.h>
#include <stdlib.h>
#include <string.h>

#include "files.h"

/* A module that this maker can't make ends it. */
static void too_large(void)
{
	fputs("make: a module with too many entries\n", stderr);
	exit(2);
}

uint64_t fixed_part(enum kind kind)
{
	return kind == KIND_PE32 ? 96 : 112;
}

uint64_t base_width(enum kind kind)
{
	return kind == KIND_PE32 ? 4 : 8;
}

uint64_t base_place(const struct module *m)
{
	return m->kind == KIND_TE ? 16 : m->opt + (m->kind == KIND_PE32 ? 28 : 24);
}

unsigned holder_of(enum kind kind)
{
	return kind == KIND_TE ? HOLDS_TE : HOLDS_PE32;
}

/* ---- the layout ---- */

/* The first header is followed by the second at once, six directories are there, addresses are places. */
void start_module(struct module *m, enum kind kind)
{
	memset(m, 0, sizeof *m);
	m->kind = kind;
	m->base = 0xFFF80000;
	m->stripped = 0x1B8;
	m->lfanew = MZ_HEADER;
	m->directories = 6;
	m->rows = 2;
	m->optional = fixed_part(kind) + 8 * m->directories;
}

/* Where the section headers stand, and the data after them. */
void lay_head(struct module *m, uint64_t data_size)
{
	m->opt = m->lfanew + 24;
	m->table = m->kind == KIND_TE ? TE_HEADER : m->opt + m->optional;
	m->data = m->table + ROW * m->rows;
	m->data_size = data_size;
	m->row[0] = (struct row){ .rva = rva_of(m, m->data), .memory = data_size, .place = m->data, .size = data_size };
	if (m->kind == KIND_TE)
		m->row[0].place = m->row[0].rva;
	m->block = MODULE_BLOCKS;
}

/* TE: the documents count from before the strip, and the header of 40 bytes stands in the place of what was stripped. */
uint64_t rva_of(const struct module *m, uint64_t place)
{
	return m->kind == KIND_TE ? place + m->stripped - TE_HEADER : place + m->skew;
}

/* The blocks begin at the next multiple of 4, as the last row's data. */
void lay_blocks(struct module *m)
{
	end_block(m);
	m->blocks = upto4(m->data + m->data_size);
	m->size = m->blocks + m->blocks_size;
	m->directory = rva_of(m, m->blocks);
	m->directory_size = m->blocks_size;
	if (m->rows < 2)
		return;
	m->row[m->rows - 1] = (struct row){ .rva = m->directory, .memory = m->blocks_size, .place = m->blocks, .size = m->blocks_size };
	if (m->kind == KIND_TE)
		m->row[m->rows - 1].place = m->directory;
}

/* ---- the blocks ---- */

/* A number at the stream's end. */
static void append(struct module *m, unsigned width, uint64_t value)
{
	if (m->blocks_size + width > MODULE_BLOCKS)
		too_large();
	set_number(m->stream, m->blocks_size, width, value);
	m->blocks_size += width;
}

/* The block's size is written where one is open. */
void end_block(struct module *m)
{
	if (m->block == MODULE_BLOCKS)
		return;
	if (m->blocks_size % 4 != 0)
		append(m, 2, 0);
	set_number(m->stream, m->block + 4, 4, m->blocks_size - m->block);
	m->block = MODULE_BLOCKS;
}

void add_entry(struct module *m, unsigned type, uint64_t rva)
{
	const uint64_t page = rva / 4096 * 4096;
	if (m->block != MODULE_BLOCKS && m->page != page)
		end_block(m);
	if (m->block == MODULE_BLOCKS) {
		m->block = m->blocks_size;
		m->page = page;
		append(m, 4, page);
		append(m, 4, 0);
	}
	append(m, 2, type << 12 | rva % 4096);
}

void add_word(struct module *m, unsigned width, uint64_t place)
{
	add_entry(m, width == 4 ? ENTRY_WORD : ENTRY_LONG, rva_of(m, place));
}

/* ---- the bytes ---- */

/* One section header; names and flags are those of code and of relocations. */
static void make_row(const struct module *m, uint8_t *at, uint64_t i)
{
	uint8_t *row = at + m->table + ROW * i;
	memset(row, 0, ROW);
	memcpy(row, i == 0 ? ".text" : ".reloc", i == 0 ? 5 : 6);
	set_number(row, 8, 4, m->row[i].memory);
	set_number(row, 12, 4, m->row[i].rva);
	set_number(row, 16, 4, m->row[i].size);
	set_number(row, 20, 4, m->row[i].place);
	set_number(row, 36, 4, i == 0 ? 0x60000020 : 0x42000040);
}

/* A TE header: machine, section headers, subsystem, entry point and code, image base, relocations. */
static void make_te(const struct module *m, uint8_t *at)
{
	memset(at, 0, TE_HEADER);
	memcpy(at, "VZ", 2);
	set_number(at, 2, 2, 0x014C);
	set_number(at, 4, 1, m->rows);
	set_number(at, 5, 1, 11);
	set_number(at, 6, 2, m->stripped);
	set_number(at, 8, 4, m->row[0].rva);
	set_number(at, 12, 4, m->row[0].rva);
	set_number(at, 16, 8, m->base);
	set_number(at, 24, 4, m->directory);
	set_number(at, 28, 4, m->directory_size);
}

/* The optional header; a byte of it that no directory has is 0. */
static void make_optional(const struct module *m, uint8_t *opt)
{
	const uint64_t fixed = fixed_part(m->kind);
	memset(opt, 0, m->optional);
	set_number(opt, 0, 2, m->kind == KIND_PE32 ? 0x10B : 0x20B);
	set_number(opt, 4, 4, m->row[0].size);
	set_number(opt, 16, 4, m->row[0].rva);
	set_number(opt, 20, 4, m->row[0].rva);
	set_number(opt, base_place(m) - m->opt, (unsigned)base_width(m->kind), m->base);
	set_number(opt, 32, 4, 32);
	set_number(opt, 36, 4, 32);
	set_number(opt, 56, 4, upto8(m->size + m->skew));
	set_number(opt, 60, 4, m->data);
	set_number(opt, 68, 2, 11);
	set_number(opt, fixed - 4, 4, m->directories);
	if (m->directories > 5 && m->optional >= fixed + 48) {
		set_number(opt, fixed + 40, 4, m->directory);
		set_number(opt, fixed + 44, 4, m->directory_size);
	}
}

/* The first header, the mark, the file header. */
static void make_pe(const struct module *m, uint8_t *at)
{
	uint8_t *file = at + m->lfanew + 4;
	memset(at, 0, m->opt);
	make_optional(m, at + m->opt);
	memcpy(at, "MZ", 2);
	set_number(at, 60, 4, m->lfanew);
	memcpy(file - 4, "PE\0", 4);
	set_number(file, 0, 2, m->kind == KIND_PE32 ? 0x014C : 0x8664);
	set_number(file, 2, 2, m->rows);
	set_number(file, 16, 2, m->optional);
	set_number(file, 18, 2, 0x0002);
}

void make_module(const struct module *m, uint8_t *at)
{
	if (m->kind == KIND_TE)
		make_te(m, at);
	else
		make_pe(m, at);
	for (uint64_t i = 0; i < m->rows && i < MODULE_ROWS; i++)
		make_row(m, at, i);
	memcpy(at + m->blocks, m->stream, m->blocks_size);
}
