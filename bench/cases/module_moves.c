/* Releases of images with modules: moved there and back, by any distance, with settings, and refused with nothing changed. */
#include "module_cases.h"
#include "sheet_cases.h"

/* Bases that the image may move to from where it is. */
static uint64_t base_of(unsigned i)
{
	const uint64_t base[] = { 0, highest_base(), now.base, 0x1000, 0x00100000, 0x7FFFF000, 0x80000000, random_base() };
	return base[i % COUNT(base)];
}

/* "Moving": every volume to every base, and back again. */
static void moves_all(unsigned k)
{
	for (unsigned i = 0; i < 8; i++) {
		several(k);
		show_move(now.length, base_of(i), 0, 0);
		if (i % 2 == 0)
			show_move(now.length, now.base, 0, 0);
	}
	several(k);
	show_move(now.length, highest_base(), 0, 0);
	show_move(now.length, 0, 0, 0);
	show_move(now.length, 0x1000, 0, 0);
	show_move(now.length, 0x00345000, 0, 0);
	show_move(now.length, now.base, 0, 0);
}

/* "Moving": words with the values of one turn, from one base to another and back. */
static void moves_values(unsigned k, uint64_t from, uint64_t to, uint64_t turn)
{
	several(k);
	list_words();
	now.base = from;
	put(spot.H + 28, 4, from);
	for (uint64_t i = 1; i < shown; i++)
		put(shown_place[i], shown_width[i], odd_value(shown_width[i], 3 * turn + i, from, to));
	show_move(now.length, to, 0, 0);
	show_move(now.length, from, 0, 0);
}

/* "Moving": up and down, by little and by nearly 2^32; 64-bit words take the signed move, so that they carry and borrow over 2^32. */
static void moves_far(unsigned k)
{
	static const uint64_t pair[][2] = {
		{ 0xFFF80000, 0x00100000 }, { 0x00100000, 0xFFF80000 }, { 0, 0xFFFFF000 }, { 0xFFFFF000, 0 }, { 0x1000, 0 }, { 0, 0x1000 },
		{ 0x7FFFF000, 0x80000000 }, { 0x80000000, 0x7FFFF000 }, { 0x12345000, 0xFEDCB000 },
	};
	for (uint64_t i = 0; i < COUNT(pair); i++) {
		several(k);
		const uint64_t from = pair[i][0] > highest_base() ? highest_base() : pair[i][0];
		const uint64_t to = pair[i][1] > highest_base() ? highest_base() : pair[i][1];
		moves_values(k, from, to, i + k);
		moves_values(k, from, to, i + k + 4);
	}
}

/* A sheet with a move: the region is beside modules, in one of their files, or between them. */
static void moves_set(unsigned k)
{
	several(k);
	draft_start();
	draft_field(32, 3);
	draft_field(36, now.z - 37);
	draft.flavour = k;
	write_draft();
	show_release(now.length, draft.length, random_base(), 0, 0);
	show_release(now.length, draft.length, now.base, 0, 0);
	draft_scattered();
	write_draft();
	show_release(now.length, draft.length, random_base(), 0, 0);
	show_release(now.length, draft.length, highest_base() + 4096, 18, 0);
	show_release(now.length, draft.length - 1, random_base(), 15, 0);
}

/* Refusals 25, 26 and 27 in one of the modules: no byte changes, whatever sheet and base are. */
static void moves_refused(unsigned k)
{
	for (uint64_t fault = 25; fault < 28; fault++) {
		for (unsigned i = 0; i < inner_count; i++) {
			several(k);
			if (inner[i].m.blocks_size == 0 && fault > 25)
				continue;
			const uint64_t at = inner[i].at, entry = at + inner[i].m.blocks + 8;
			if (fault == 25)
				put(at, 1, 'X');
			else if (fault == 26)
				put(entry + 2, 2, get(entry, 2));
			else
				put(entry + 1, 1, 0x40 | get(entry + 1, 1) % 16);
			show_move(now.length, random_base(), fault, 0);
			show_move(now.length, now.base, fault, 0);
			show_move(now.length, now.base + 1, fault, 0);
		}
	}
}

/* Any bytes in all words, by the fixed sequence. */
static void moves_random(unsigned count)
{
	for (unsigned i = 0; i < count; i++) {
		several(i % SEVERALS);
		list_words();
		now.base = random_base();
		put(spot.H + 28, 4, now.base);
		for (uint64_t j = 1; j < shown; j++)
			put(shown_place[j], shown_width[j], below(UINT64_C(1) << 47) * 131071);
		show_move(now.length, random_base(), 0, 0);
		show_move(now.length, random_base(), 0, 0);
	}
}

/* A module on trial moved: one word of it, at a place that only the section headers give. */
static void moves_placed(enum kind kind)
{
	start_module(&mod, kind);
	mod.rows = 3;
	mod.skew = 0x3000;
	lay_head(&mod, 48);
	add_entry(&mod, ENTRY_LONG, 0x1009);
	add_entry(&mod, ENTRY_LONG, 0x1008);
	lay_blocks(&mod);
	mod.row[0].rva = 0x1000;
	mod.row[0].size = 16;
	mod.row[1] = (struct row){ .rva = 0x1000, .memory = 32, .place = mod.data + 16, .size = 32 };
	around();
	show_move(now.length, 0x00100000, 0, 0);
	show_move(now.length, now.base, 0, 0);
}

/* PE32: words in this order of relative addresses, each with its width, where a section's data hides part of the next one's. */
static void moves_hidden(enum kind kind, const uint64_t (*at)[2], size_t count)
{
	start_module(&mod, kind);
	mod.rows = 3;
	mod.skew = 0x3000;
	lay_head(&mod, 80);
	for (size_t i = 0; i < count; i++)
		add_entry(&mod, at[i][1] == 4 ? ENTRY_WORD : ENTRY_LONG, at[i][0]);
	lay_blocks(&mod);
	mod.row[0] = (struct row){ .rva = 0x1010, .memory = 16, .place = mod.data + 64, .size = 16 };
	mod.row[1] = (struct row){ .rva = 0x1000, .memory = 64, .place = mod.data, .size = 64 };
	around();
	show_move(now.length, 0x00100000, 0, 0);
	show_move(now.length, now.base, 0, 0);
}

/* PE32: one after the other, the other way round, and in turn from both ends. */
static void moves_orders(enum kind kind)
{
	static const uint64_t up[][2] = {
		{ 0x1000, 4 }, { 0x1004, 8 }, { 0x100D, 4 }, { 0x1011, 4 }, { 0x1015, 4 }, { 0x101C, 4 }, { 0x101D, 8 }, { 0x1025, 4 }, { 0x1030, 8 },
	};
	uint64_t down[COUNT(up)][2], mixed[COUNT(up)][2];
	for (size_t i = 0; i < COUNT(up); i++) {
		const size_t k = i % 2 == 0 ? i / 2 : COUNT(up) - 1 - i / 2;
		for (size_t j = 0; j < 2; j++) {
			down[i][j] = up[COUNT(up) - 1 - i][j];
			mixed[i][j] = up[k][j];
		}
	}
	moves_hidden(kind, up, COUNT(up));
	moves_hidden(kind, (const uint64_t (*)[2])down, COUNT(up));
	moves_hidden(kind, (const uint64_t (*)[2])mixed, COUNT(up));
}

/* The releases of #107. */
void release_modules(void)
{
	begin_part(UINT64_C(0xBB67AE8584CAA73B), false);
	for (unsigned k = 0; k < SEVERALS; k++) {
		moves_all(k);
		moves_set(k);
		moves_refused(k);
	}
	for (unsigned k = 0; k < SEVERALS; k++)
		moves_far(k);
	moves_placed(KIND_PE32);
	moves_placed(KIND_PE64);
	moves_orders(KIND_PE32);
	moves_orders(KIND_PE64);
	moves_random(36);
}
