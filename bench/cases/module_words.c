/* Module cases: refusal 26, words that share a byte with another or lie where no word may. */
#include "module_cases.h"

/* The bytes of two ranges have one in common. */
static bool share(uint64_t a, uint64_t a_size, uint64_t b, uint64_t b_size)
{
	return a < b + b_size && b < a + a_size;
}

/* A module whose first section has the whole of it from its first byte on, headers and blocks too; so many bytes after the blocks, and 24 of
   its optional header that no directory has. */
static void covering(enum kind kind, uint64_t more)
{
	start_module(&mod, kind);
	mod.lfanew = 96;
	mod.optional += 24;
	lay_head(&mod, 48);
	add_word(&mod, 4, mod.data + 16);
	add_word(&mod, 4, mod.data + 24);
	lay_blocks(&mod);
	mod.size += more;
	mod.row[0] = (struct row){ .rva = rva_of(&mod, 0), .memory = mod.size, .place = 0, .size = mod.size };
	if (kind == KIND_TE)
		mod.row[0].place = mod.row[0].rva;
	around();
}

/* The covering module's first entry becomes a word somewhere else in it. */
static void own_word(unsigned type, uint64_t place, uint64_t number)
{
	poke(entry_at(0), 2, entry_for(type, place), number);
}

/* ---- words against words ---- */

/* Refusal 26: two words of a module at each distance, of either width, in either order. */
void words_apart(enum kind kind)
{
	for (unsigned mix = 0; mix < 4; mix++) {
		const unsigned one = mix % 2 == 0 ? 4 : 8, other = mix / 2 == 0 ? 4 : 8;
		for (uint64_t d = 0; d < 19; d++) {
			start_module(&mod, kind);
			lay_head(&mod, 40);
			const uint64_t place = mod.data + 15;
			add_word(&mod, one, place);
			add_word(&mod, other, place + d - 9);
			lay_blocks(&mod);
			judge(share(place, one, place + d - 9, other) ? 26 : 0);
		}
	}
}

/* Refusal 26: a patch word about the module's words; inside the module beside them, and one that is also a relocation word. */
void words_patch(enum kind kind)
{
	usual(kind);
	const uint64_t data = trial.at + mod.data;
	for (uint64_t d = 9; d < 37; d++)
		patch_at(data + d, share(data + d, 4, data + 16, 16) ? 26 : 0);
	patch_at(data, 0);
	patch_at(data + 60, 0);
	patch_at(data + 61, 26);
	around();
	patch(0, data + 8);
	patch(1, data + 40);
	show(now.length, 0, 0);
	patch(0, data + 16);
	show(now.length, 26, 0);
	patch(0, data + 28);
	show(now.length, 26, 0);
}

/* ---- words against headers ---- */

/* A patch word just before some bytes, in them by one byte, in their last byte, and just after them. */
static void patch_about(uint64_t from, uint64_t to)
{
	patch_at(from - 4, 0);
	patch_at(from - 3, 26);
	patch_at(from, 26);
	patch_at(to - 1, 26);
	patch_at(to - 4, 26);
	patch_at(to, 0);
}

/* Refusal 26: a patch word about the headers of files, of sections and of the module. */
void words_headers(enum kind kind)
{
	covering(kind, 8);
	const uint64_t file = trial.file, next = trial.at + upto4(mod.size);
	patch_about(file, file + FILE_HEADER + SECTION_HEADER);
	patch_about(trial.pad_file, trial.pad_file + FILE_HEADER);
	patch_at(trial.words_file + FILE_HEADER - 1, 26);
	patch_at(trial.words_file + FILE_HEADER, 0);
	patch_at(trial.section - 4, 0);
	patch_at(trial.section - 3, 26);
	for (uint64_t i = 0; i < 5; i++)
		patch_at(trial.section + i, 26);
	patch_about(next, next + SECTION_HEADER);
	patch_at(trial.at + mod.data - 1, 26);
	patch_at(trial.at + mod.data, 0);
	patch_at(trial.at + mod.table, 26);
	patch_at(trial.at + base_place(&mod), 26);
	patch_at(trial.at + base_place(&mod) + base_width(kind), 26);
	if (kind == KIND_TE)
		return;
	patch_at(trial.at + MZ_HEADER - 1, 26);
	patch_at(trial.at + MZ_HEADER, 0);
	patch_at(trial.at + mod.lfanew - 4, 0);
	for (uint64_t at = mod.lfanew - 3; at < mod.table; at += 17)
		patch_at(trial.at + at, 26);
}

/* Refusal 26: a module's word in its own headers; between the two headers of PE32 it may be. */
void words_own_headers(enum kind kind)
{
	covering(kind, 0);
	for (uint64_t at = 0; at < mod.data; at += at < 40 ? 4 : 13) {
		const bool between = kind != KIND_TE && at >= MZ_HEADER && at + 4 <= mod.lfanew;
		own_word(ENTRY_WORD, at, between ? 0 : 26);
	}
	own_word(ENTRY_WORD, mod.data - 1, 26);
	own_word(ENTRY_WORD, mod.data - 3, 26);
	own_word(ENTRY_WORD, mod.data, 0);
	own_word(ENTRY_LONG, mod.data, 0);
	own_word(ENTRY_LONG, mod.data - 1, 26);
	if (kind == KIND_TE)
		return;
	own_word(ENTRY_WORD, MZ_HEADER - 1, 26);
	own_word(ENTRY_WORD, MZ_HEADER, 0);
	own_word(ENTRY_LONG, MZ_HEADER, 0);
	own_word(ENTRY_WORD, mod.lfanew - 4, 0);
	own_word(ENTRY_WORD, mod.lfanew - 3, 26);
	own_word(ENTRY_LONG, mod.lfanew - 8, 0);
	own_word(ENTRY_LONG, mod.lfanew - 7, 26);
}

/* ---- words against blocks, and outside ---- */

/* Refusal 26: words in a relocation block, the module's and a patch word. */
void words_blocks(enum kind kind)
{
	covering(kind, 16);
	const uint64_t end = mod.blocks + mod.blocks_size;
	own_word(ENTRY_WORD, mod.blocks - 4, 0);
	own_word(ENTRY_WORD, mod.blocks - 3, 26);
	own_word(ENTRY_LONG, mod.blocks - 8, 0);
	own_word(ENTRY_LONG, mod.blocks - 7, 26);
	for (uint64_t at = mod.blocks; at < end; at += 3)
		own_word(ENTRY_WORD, at, 26);
	own_word(ENTRY_WORD, end - 1, 26);
	own_word(ENTRY_WORD, end, 0);
	own_word(ENTRY_LONG, end, 0);
	patch_about(trial.at + mod.blocks, trial.at + end);
}

/* Refusal 26: a module's word that doesn't end in it, or begins before it. */
void words_outside(enum kind kind)
{
	covering(kind, 16);
	own_word(ENTRY_WORD, mod.size - 4, 0);
	own_word(ENTRY_WORD, mod.size - 3, 26);
	own_word(ENTRY_WORD, mod.size, 26);
	own_word(ENTRY_WORD, mod.size + 60, 26);
	own_word(ENTRY_LONG, mod.size - 8, 0);
	own_word(ENTRY_LONG, mod.size - 7, 26);
	own_word(ENTRY_LONG, mod.size - 4, 26);
	if (kind != KIND_TE)
		return;
	own_word(ENTRY_WORD, UINT64_MAX, 26);
	own_word(ENTRY_WORD, UINT64_MAX - 3, 26);
	own_word(ENTRY_LONG, UINT64_MAX - 3, 26);
	own_word(ENTRY_WORD, TE_HEADER - mod.stripped, 26);
}

/* The module on trial as the last part of its file, which ends so that free bytes lie between it and the next file. */
static void before_gap(uint64_t number)
{
	volume_start(0);
	region_add(32);
	file_start(TYPE_PEIM);
	trial.at = module_add(&mod);
	file_end();
	file_start(TYPE_RAW);
	file_end();
	volume_end(8, 0);
	show(now.length, number, 0);
}

/* Refusals 26 and 25: a word or a block that goes on in bytes that nothing else has, by the least number of them. */
void words_gap(enum kind kind)
{
	for (uint64_t width = 4; width < 9; width += 4) {
		for (uint64_t over = 0; over < 4; over++) {
			start_module(&mod, kind);
			lay_head(&mod, 40);
			add_word(&mod, (unsigned)width, mod.data);
			lay_blocks(&mod);
			mod.size = upto8(mod.size) + 13;
			mod.row[0].size = mod.size - mod.data;
			set_number(mod.stream, 8, 2, entry_for(width == 4 ? ENTRY_WORD : ENTRY_LONG, mod.size - width + over));
			before_gap(over == 0 ? 0 : 26);
		}
	}
	for (uint64_t over = 0; over < 3; over++) {
		start_module(&mod, kind);
		lay_head(&mod, 29);
		add_entry(&mod, ENTRY_SKIP, 0);
		add_entry(&mod, ENTRY_SKIP, 0);
		lay_blocks(&mod);
		mod.size -= 2 * over;
		mod.row[1].size -= 2 * over;
		before_gap(over == 0 ? 0 : 25);
	}
}

/* PE32: two sections of 16 and 32 bytes with these addresses, at the data's start and 16 bytes on; then the word of an entry. */
static void two_rows(enum kind kind, uint64_t rva, uint64_t next_rva, unsigned type, uint64_t word_rva)
{
	start_module(&mod, kind);
	mod.rows = 3;
	mod.skew = 0x3000;
	lay_head(&mod, 48);
	add_entry(&mod, type, word_rva);
	lay_blocks(&mod);
	mod.row[0].rva = rva;
	mod.row[0].size = 16;
	mod.row[1] = (struct row){ .rva = next_rva, .memory = 32, .place = mod.data + 16, .size = 32 };
	around();
}

/* That word is at this place: a patch word is refused there, and taken just before and after. */
static void word_is_at(uint64_t place, unsigned width)
{
	judge(0);
	patch_at(trial.at + place + width - 1, 26);
	patch_at(trial.at + place, 26);
	if (place >= mod.data + 4)
		patch_at(trial.at + place - 4, 0);
	if (place + width + 4 <= mod.data + 48)
		patch_at(trial.at + place + width, 0);
}

/* Refusal 26, PE32: a word lies whole in one section's data; where sections overlap in memory the first that holds it whole decides. */
void words_sections(enum kind kind)
{
	for (uint64_t at = 0; at < 20; at += at < 11 ? 4 : 1) {
		two_rows(kind, 0x1000, 0x1010, ENTRY_WORD, 0x1000 + at);
		if (at <= 12 || at >= 16)
			word_is_at(mod.data + at, 4);
		else
			judge(26);
	}
	for (uint64_t at = 6; at < 20; at += 2) {
		two_rows(kind, 0x1000, 0x1000, ENTRY_LONG, 0x1000 + at);
		word_is_at(mod.data + at + (at <= 8 ? 0 : 16), 8);
	}
	two_rows(kind, 0x1010, 0x1000, ENTRY_WORD, 0x1012);
	word_is_at(mod.data + 2, 4);
	two_rows(kind, 0x1010, 0x1000, ENTRY_WORD, 0x100E);
	word_is_at(mod.data + 16 + 14, 4);
	two_rows(kind, 0xFFFFFFF0, 0x1000, ENTRY_WORD, 0xFFFFFFFC);
	word_is_at(mod.data + 12, 4);
	two_rows(kind, 0x1000, 0xFFFFFFF0, ENTRY_WORD, 0xFFFFFFFE);
	word_is_at(mod.data + 16 + 14, 4);
	two_rows(kind, 0x1000, 0xFFFFFFF0, ENTRY_WORD, 0);
	judge(26);
	two_rows(kind, 0x1000, 0xFFFFFFF0, ENTRY_WORD, 0x0C);
	judge(26);
	two_rows(kind, 0x1000, 0x2000, ENTRY_WORD, 0x1FFF);
	judge(26);
	two_rows(kind, 0x1000, 0x2000, ENTRY_WORD, 0x0FFF);
	judge(26);
	two_rows(kind, 0x1000, 0x2000, ENTRY_WORD, 0x201C);
	mod.row[1].memory = 1;
	judge(0);
	mod.row[1].size = 31;
	judge(26);
	mod.row[1].memory = 64;
	judge(26);
	mod.row[1].size = 0;
	judge(26);
}

/* ---- the image base ---- */

/* A block over the numbers before the image base, of so many bytes, its page being whatever stands there. */
static void block_over(uint64_t first, uint64_t size, uint64_t number)
{
	around();
	put(trial.at + first, 4, 0);
	put(trial.at + first + 4, 4, size);
	if (size > 8)
		put(trial.at + first + 8, 4, 0);
	put(trial.at + base_place(&mod), 4, 0);
	show(now.length, number, 0);
}

/* Refusal 26: an entry that names its own image base, and a block that has a byte of it. */
void words_base(enum kind kind)
{
	covering(kind, 0);
	own_word(ENTRY_WORD, base_place(&mod), 26);
	own_word(ENTRY_LONG, base_place(&mod), 26);
	own_word(ENTRY_WORD, base_place(&mod) + base_width(kind) - 1, 26);
	const uint64_t first = base_place(&mod) - (kind == KIND_PE32 ? 12 : 8);
	mod.directory = rva_of(&mod, first);
	mod.directory_size = 1;
	block_over(first, 8, 0);
	block_over(first, 12, kind == KIND_PE32 ? 0 : 26);
	block_over(first, 16, 26);
	static const uint64_t base[] = { 0, 1, 0xFFFFFFFF, UINT64_MAX, UINT64_C(0x0123456789ABCDEF) };
	usual(kind);
	for (size_t i = 0; i < COUNT(base); i++)
		poke(trial.at + base_place(&mod), (unsigned)base_width(kind), base[i], 0);
}

/* ---- the free end ---- */

/* Refusal 26: a patch word about the free end's two ends, and in a gap between two files. */
void words_free(void)
{
	usual(KIND_TE);
	patch_about(free_from, now.V);
	for (uint64_t d = 4; d < 12; d += 3)
		patch_at(free_from + d, 26);
	volume_start(3);
	room(4);
	region_add(32);
	volume_end(0, 16);
	now.entry[0] = word(spot.E, false, 0);
	now.entry[1] = word(now.V, true, 0);
	now.entry[2] = word(now.V + 8, false, 0);
	put_parts();
	show(now.length, 0, 0);
	for (uint64_t d = 1; d < 28; d += d < 4 ? 1 : 8) {
		patch(0, spot.E + d);
		show(now.length, 26, 0);
	}
}
