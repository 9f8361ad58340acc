/* Module cases: volumes of several files and modules, read, and what the releases and the audits start from. */
#include "module_cases.h"

#include <string.h>

struct inner inner[MOST_INNER];
unsigned inner_count;

/* One more module, remembered with its place. */
static void add_inner(const struct module *m)
{
	if (inner_count == MOST_INNER)
		fail("too many modules");
	inner[inner_count].m = *m;
	inner[inner_count].at = module_add(m);
	inner_count++;
}

/* A module of one kind: so many words of four bytes and of eight, the last first where it is to be turned round. */
static void add_plain(enum kind kind, unsigned fours, unsigned eights, bool round)
{
	struct module m;
	const unsigned all = fours + eights;
	start_module(&m, kind);
	m.skew = 0x40 * all;
	m.base = now.base + UINT64_C(0x100000000) * (all % 3) + 0x1000 * all;
	lay_head(&m, 13 * all + 4);
	for (unsigned i = 0; i < all; i++) {
		const unsigned k = round ? all - 1 - i : i;
		add_word(&m, k < eights ? 8 : 4, m.data + 3 + 12 * k);
		if (i % 3 == 1)
			add_entry(&m, ENTRY_SKIP, rva_of(&m, m.data + 3 + 12 * k) + 1);
	}
	lay_blocks(&m);
	add_inner(&m);
}

/* A module without relocations: its image base is moved alone. */
static void add_still(enum kind kind)
{
	struct module m;
	start_module(&m, kind);
	m.directories = 5;
	m.optional = fixed_part(kind) + 40;
	m.rows = 1;
	lay_head(&m, 20);
	m.size = m.data + 20;
	m.base = UINT64_MAX - 0xFFF;
	add_inner(&m);
}

/* A raw or pad file of so many bytes. */
static uint64_t add_plain_file(unsigned type, uint64_t bytes)
{
	const uint64_t file = file_start(type);
	room(bytes);
	file_end();
	return file + FILE_HEADER;
}

/* ---- the volumes ---- */

/* One module of the kind, then the region; no free end. */
static void one_kind(enum kind kind)
{
	file_start(TYPE_PEIM);
	add_plain(kind, 3, kind == KIND_PE32 ? 0 : 2, false);
	file_end();
	region_add(64);
	point(0, add_plain_file(TYPE_RAW, 20) + 7);
	point(1, inner[0].at + inner[0].m.data + inner[0].m.data_size - 4);
}

/* Two modules in one file with other sections about them, raw and pad files between, a third in another file. */
static void three_kinds(void)
{
	point(0, add_plain_file(TYPE_PAD, 29) + 4);
	file_start(TYPE_DRIVER);
	section_add(HOLDS_DXE_DEPEX, 7);
	add_plain(KIND_TE, 2, 1, true);
	section_add(HOLDS_NAME, 3);
	add_plain(KIND_PE32, 4, 0, false);
	file_end();
	region_add(75);
	point(1, add_plain_file(TYPE_RAW, 33) + 29);
	file_start(TYPE_PEIM);
	add_plain(KIND_PE64, 1, 3, true);
	file_end();
	add_plain_file(TYPE_PAD, 0);
}

/* The region in a section of a file that has modules too, none of them with relocations, or with skipped ones alone. */
static void still_kinds(void)
{
	file_start(TYPE_FREEFORM);
	add_still(KIND_TE);
	now.c = section_add(HOLDS_RAW, 90) + SECTION_HEADER + 2;
	now.z = 66;
	add_still(KIND_PE64);
	add_still(KIND_PE32);
	file_end();
	point(0, now.c - 6 + 72);
	point(1, inner[1].at + inner[1].m.data);
}

/* The header file has a module after its section. */
static void inside_header_file(void)
{
	const uint64_t section = upto4(spot.f + FILE_HEADER + spot.S);
	room(section - drafted());
	add_plain(KIND_TE, 1, 2, false);
	now.more_file = drafted() - (spot.f + FILE_HEADER + spot.S);
	spot.s = FILE_HEADER + spot.S + now.more_file;
	region_add(64);
	point(1, add_plain_file(TYPE_RAW, 8) + 4);
	point(0, inner[0].at + inner[0].m.data + inner[0].m.data_size - 4);
}

/* Six volumes; the free end has so many bytes, and so many follow the volume. */
void several(unsigned k)
{
	static const uint64_t base[SEVERALS] = { 0xFFF80000, 0x00100000, 0, 0x80000000, 0x7FFFF000, 0xFFFFE000 };
	static const uint64_t free_bytes[SEVERALS] = { 0, 1, 7, 8, 0, 24 };
	static const uint64_t after[SEVERALS] = { 0, 3, 40, 0, 9, 1 };
	inner_count = 0;
	volume_start(2);
	now.base = base[k];
	now.component = 1 + k % 4;
	if (k < 3)
		one_kind((enum kind)k);
	else if (k == 3)
		three_kinds();
	else if (k == 4)
		still_kinds();
	else
		inside_header_file();
	volume_end(free_bytes[k], after[k]);
	if (k == 5) {
		put(spot.f + 18, 1, TYPE_FREEFORM);
		mend();
	}
}

/* The volumes as they are, and cut by a byte, with the size in the header following. */
void several_read(void)
{
	for (unsigned k = 0; k < SEVERALS; k++) {
		several(k);
		show(now.length, 0, 0);
		put(32, 8, now.V - 1);
		mend();
		show(now.length, ANY, 0);
	}
}
