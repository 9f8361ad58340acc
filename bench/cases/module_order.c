/* Module cases: which refusal goes first, and all readings of #107 in order. */
#include "module_cases.h"
#include "read_cases.h"

/* One fault in a module of the volume with three of them. */
static void break_inner(unsigned i, uint64_t fault)
{
	const uint64_t at = inner[i].at, entry = at + inner[i].m.blocks + 8;
	if (fault == 25)
		put(at + (inner[i].m.kind == KIND_TE ? 0 : inner[i].m.lfanew), 1, 'X');
	else if (fault == 26)
		put(entry + 2, 2, get(entry, 2));
	else if (fault == 27)
		put(entry + 1, 1, 0x90 | get(entry + 1, 1) % 16);
}

/* 25, 26 and 27 are passes over everything: every way to have one or none of them in each of three modules, and 14 or 13 before. */
static void order_passes(void)
{
	static const uint64_t fault[] = { 0, 25, 26, 27 };
	for (unsigned mix = 0; mix < 192; mix++) {
		const uint64_t kind[3] = { fault[mix % 4], fault[mix / 4 % 4], fault[mix / 16 % 4] };
		uint64_t first = 0;
		several(3);
		for (unsigned i = 0; i < 3; i++) {
			break_inner(i, kind[i]);
			if (kind[i] != 0 && (first == 0 || kind[i] < first))
				first = kind[i];
		}
		if (mix / 64 == 1)
			patch(1, spot.E - 1);
		else if (mix / 64 == 2)
			patch(0, now.length - 3);
		if (mix / 64 == 0)
			show(now.length, first, 0);
		else if (mix % 3 == 0)
			show(now.length, mix / 64 == 1 ? 14 : 13, mix / 64 == 1 ? 1 : 0);
	}
}

/* A fault of 26 by a patch word, 27 in the first module, 25 in the last file or in the free end. */
static void order_far(void)
{
	several(3);
	break_inner(0, 27);
	patch(0, inner[2].at);
	show(now.length, 26, 0);
	put(free_from + 3, 1, 0);
	show(now.length, 25, 0);
	several(3);
	break_inner(0, 27);
	put(region_file + 19, 1, 1);
	show(now.length, 25, 0);
	several(3);
	break_inner(0, 27);
	put(spot.H + 36, 4, inner[1].at + inner[1].m.data);
	put(spot.H + 40, 4, 32);
	put_marks(inner[1].at + inner[1].m.data);
	show(now.length, 26, 0);
	put(spot.H + 36, 4, inner[1].at + inner[1].m.data - 1);
	put_marks(inner[1].at + inner[1].m.data - 1);
	show(now.length, 25, 0);
	patch(1, inner[1].at + inner[1].m.data);
	show(now.length, 14, 1);
}

/* The readings of one kind of module. */
static void read_kind(enum kind kind)
{
	heads_marks(kind);
	heads_cut(kind);
	heads_rows(kind);
	heads_data(kind);
	heads_unjudged(kind);
	heads_directory(kind);
	blocks_sizes(kind);
	blocks_ends(kind);
	blocks_run(kind);
	blocks_pages(kind);
	blocks_types(kind);
	blocks_rows(kind);
	blocks_none(kind);
	words_apart(kind);
	words_patch(kind);
	words_headers(kind);
	words_own_headers(kind);
	words_blocks(kind);
	words_outside(kind);
	words_gap(kind);
	words_base(kind);
	region_heads(kind);
	region_blocks(kind);
	region_words(kind);
}

/* The readings of files and sections. */
static void read_files(void)
{
	files_header();
	files_types();
	files_places();
	files_last();
	files_free();
	files_first();
	sections_sizes();
	sections_types();
	sections_left();
}

/* The readings of #107. */
void read_modules(void)
{
	begin_part(UINT64_C(0x3C6EF372FE94F82B), false);
	read_files();
	for (int k = 0; k < KINDS; k++)
		read_kind((enum kind)k);
	heads_stripped();
	for (int k = KIND_PE32; k < KINDS; k++) {
		heads_lfanew((enum kind)k);
		heads_optional((enum kind)k);
		heads_kind((enum kind)k);
		words_sections((enum kind)k);
		blocks_folded((enum kind)k);
		blocks_hidden((enum kind)k);
	}
	words_free();
	region_files();
	region_free();
	several_read();
	order_passes();
	order_far();
}
