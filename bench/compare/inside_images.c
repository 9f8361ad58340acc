/* The modules of a drawn image. */
#include "inside.h"

#include "../make/drawn.h"
#include "../make/files.h"

#define TWO32 UINT64_C(0x100000000)

/* The numbers of the headers; six directories or more, seldom fewer, and then no relocations. */
static void draw_head(struct module *m)
{
	start_module(m, (enum kind)below(KINDS));
	m->base = below(2) == 0 ? any_number() : below(TWO32) / 4096 * 4096;
	m->stripped = below(4) == 0 ? below(41) : 40 + below(600);
	m->lfanew = below(4) == 0 ? 12 + below(60) : 64 + 8 * below(3);
	if (m->lfanew < 64)
		m->lfanew = m->kind == KIND_PE64 ? 16 : 12;
	m->directories = below(6) == 0 ? below(6) : 6 + below(11);
	m->optional = fixed_part(m->kind) + 8 * m->directories + below(3) * below(9);
	m->skew = below(2) * 4096 * below(5) + below(2) * below(40);
	m->rows = 1 + below(2);
}

/* Words one after the other, some with gaps, some in another order; some skipped entries. */
static void draw_words(struct module *m)
{
	const uint64_t most = below(12);
	uint64_t place[12], width[12], count = 0, at = m->data;
	while (count < most) {
		at += below(3) == 0 ? below(40) : 0;
		width[count] = below(3) == 0 ? 8 : 4;
		place[count] = at;
		at += width[count++];
	}
	for (uint64_t i = 0; i < count; i++) {
		const uint64_t other = below(4) == 0 ? below(count) : i, kept = place[other], wide = width[other];
		place[other] = place[i], width[other] = width[i];
		place[i] = kept, width[i] = wide;
	}
	for (uint64_t i = 0; i < count; i++) {
		if (below(6) == 0)
			add_entry(m, ENTRY_SKIP, rva_of(m, place[i]) + below(9));
		if (below(40) == 0)
			end_block(m);
		add_word(m, (unsigned)width[i], place[i]);
	}
	m->data_size = at - m->data + below(9);
}

/* A module whole: its row covers the data, and where it is the only one the blocks too. */
static void draw_module(struct module *m)
{
	draw_head(m);
	lay_head(m, 0);
	draw_words(m);
	lay_blocks(m);
	m->row[0].size = m->row[0].memory = (m->rows == 1 ? m->size : m->data + m->data_size) - m->data;
	if (m->directories < 6 && m->kind != KIND_TE)
		m->directory_size = 0;
}

/* One to three modules, each in its section. */
void draw_inside(struct inside *inside)
{
	uint64_t at = FILE_HEADER;
	inside->count = 1 + below(MOST_INSIDE);
	for (uint64_t i = 0; i < inside->count; i++) {
		draw_module(&inside->module[i]);
		at = upto4(at);
		inside->at[i] = at + SECTION_HEADER;
		at += SECTION_HEADER + inside->module[i].size;
	}
	inside->size = at;
}

void put_inside(const struct inside *inside, uint8_t *image, uint64_t at)
{
	make_file(image, at, inside->size, below(2) == 0 ? TYPE_PEIM : TYPE_DRIVER, 7);
	for (uint64_t i = 0; i < inside->count; i++) {
		const struct module *m = &inside->module[i];
		make_section(image, at + inside->at[i] - SECTION_HEADER, SECTION_HEADER + m->size, holder_of(m->kind));
		make_module(m, image + at + inside->at[i]);
	}
}
