/* Damage to files, modules and relocation blocks: refusals 25 to 27. */
#include "drawing.h"

#include <stdbool.h>

#include "fields.h"
#include "../make/files.h"

/* A number of the image, if it lies inside. */
static void set(uint64_t at, unsigned width, uint64_t value)
{
	if (at + width <= length[IMAGE])
		put_number(model[IMAGE], (size_t)at, width, value);
}

/* A number of the image near the old one, at an edge, or any. */
static void spoil(uint64_t at, unsigned width)
{
	if (at + width <= length[IMAGE])
		set(at, width, drawn_value(get_number(model[IMAGE], (size_t)at, width), width));
}

/* A number at an edge, or one beside it. */
static void about(uint64_t at, unsigned width, uint64_t edge)
{
	set(at, width, edge + below(3) - 1);
}

/* A file after the header file: its size, its type, its attributes; the section at its start. */
void damage_file(void)
{
	if (plan.cover.files == 0)
		return;
	const struct covering *file = &plan.cover.file[below(plan.cover.files)];
	const uint64_t at = file->at;
	switch (below(9)) {
	case 0: about(at + 20, 3, FILE_HEADER); break;
	case 1: about(at + 20, 3, plan.V - at); break;
	case 2: about(at + 20, 3, file->end - at); break;
	case 3: set(at + 18, 1, below(2) == 0 ? TYPE_RAW : below(256)); break;
	case 4: spoil(at + 19, 1); break;
	case 5: spoil(at + 24, 3); break;
	case 6: about(at + 24, 3, file->end - at - FILE_HEADER); break;
	case 7: about(at + 24, 3, SECTION_HEADER); break;
	default: spoil(at + 27, 1); break;
	}
}

/* A byte of the free end, or a volume that ends elsewhere. */
void damage_free(void)
{
	if (plan.cover.free < plan.V && below(2) == 0)
		set(plan.cover.free + below(plan.V - plan.cover.free), 1, below(256));
	else if (plan.cover.files != 0)
		about(32, 8, below(2) == 0 ? plan.cover.free : plan.cover.file[plan.cover.files - 1].end);
}

/* One of the modules and its place; false where there is none. */
static bool drawn_module(const struct module **m, uint64_t *at)
{
	if (plan.cover.M == NOWHERE || plan.inside.count == 0)
		return false;
	const uint64_t i = below(plan.inside.count);
	*m = &plan.inside.module[i];
	*at = plan.cover.M + plan.inside.at[i];
	return true;
}

/* A TE header: the mark, the rows, StrippedSize, the directory. */
static void damage_te(const struct module *m, uint64_t at)
{
	switch (below(7)) {
	case 0: spoil(at + below(2), 1); break;
	case 1: about(at + 4, 1, (m->size - TE_HEADER) / ROW); break;
	case 2: spoil(at + 6, 2); break;
	case 3: about(at + 6, 2, m->stripped + m->data); break;
	case 4: spoil(at + 24, 4); break;
	case 5: about(at + 28, 4, m->blocks_size); break;
	default: spoil(at + 28, 4); break;
	}
}

/* The headers of PE32 and PE32+: marks, kinds, sizes, the directory. */
static void damage_pe(const struct module *m, uint64_t at)
{
	const uint64_t pe = at + m->lfanew, opt = at + m->opt, fixed = fixed_part(m->kind);
	switch (below(13)) {
	case 0: spoil(at + below(2), 1); break;
	case 1: spoil(at + 60, 4); break;
	case 2: about(at + 60, 4, m->size - 24); break;
	case 3: spoil(pe + below(4), 1); break;
	case 4: about(pe + 6, 2, (m->size - m->table) / ROW); break;
	case 5: spoil(pe + 6, 2); break;
	case 6: about(pe + 20, 2, fixed + 8 * m->directories); break;
	case 7: about(pe + 20, 2, m->size - m->opt); break;
	case 8: set(opt, 2, below(4) == 0 ? below(65536) : below(2) == 0 ? 0x10B : 0x20B); break;
	case 9: about(opt + fixed - 4, 4, (m->optional - fixed) / 8); break;
	case 10: about(opt + fixed - 4, 4, 6); break;
	case 11: spoil(opt + fixed + 40, 4); break;
	default: spoil(opt + fixed + 44, 4); break;
	}
}

/* A module's headers, or its section's. */
void damage_module(void)
{
	const struct module *m = NULL;
	uint64_t at = 0;
	if (!drawn_module(&m, &at))
		return;
	if (below(6) == 0)
		about(at - SECTION_HEADER, 3, SECTION_HEADER + (below(2) == 0 ? m->size : below(m->size)));
	else if (below(12) == 0)
		spoil(at - 1, 1);
	else if (m->kind == KIND_TE)
		damage_te(m, at);
	else
		damage_pe(m, at);
}

/* A section header: where its data is in the file and in memory, and how long it is. */
void damage_row(void)
{
	const struct module *m = NULL;
	uint64_t at = 0;
	if (!drawn_module(&m, &at))
		return;
	const uint64_t i = below(m->rows), row = at + m->table + ROW * i, strip = m->kind == KIND_TE ? m->stripped - TE_HEADER : 0;
	switch (below(7)) {
	case 0: about(row + 16, 4, m->size + strip - m->row[i].place); break;
	case 1: about(row + 20, 4, m->size + strip - m->row[i].size); break;
	case 2: about(row + 12, 4, m->row[i].rva); break;
	case 3: about(row + 16, 4, m->row[i].size); break;
	case 4: set(row + 16, 4, 0); break;
	case 5: about(row + 20, 4, strip); break;
	default: spoil(row + 12 + 4 * below(3), 4); break;
	}
}

/* A block's page or size, or an entry: another type, a word twice, about the data's ends, about the headers. */
void damage_block(void)
{
	const struct module *m = NULL;
	uint64_t at = 0;
	if (!drawn_module(&m, &at) || m->blocks_size < 12 || at + m->size > length[IMAGE])
		return;
	const uint64_t block = at + m->blocks, entry = block + 8 + 2 * below((m->blocks_size - 8) / 2);
	const uint64_t page = rva_of(m, m->data) / 4096 * 4096;
	const uint64_t edge[] = { 0, base_place(m), m->table, m->data, m->blocks, m->size, m->data + m->data_size };
	switch (below(14)) {
	case 0: about(block + 4, 4, 8); break;
	case 1: about(block + 4, 4, m->size - m->blocks); break;
	case 2: set(block + 4, 4, 4 * below(m->blocks_size)); break;
	case 3: spoil(block, 4); break;
	case 4: spoil(block + 4, 4); break;
	case 5: set(entry + 1, 1, below(256)); break;
	case 6:
	case 7:
	case 8: set(entry + 1, 1, below(16) << 4 | (uint64_t)(model[IMAGE][entry + 1] & 15)); break;
	case 9: set(entry, 2, get_number(model[IMAGE], (size_t)(block + 8), 2) + below(17) - 8); break;
	default: set(entry, 2, (below(2) == 0 ? 3u : 10u) << 12 | ((rva_of(m, edge[below(7)]) - page + below(17) - 8) & 4095)); break;
	}
}
