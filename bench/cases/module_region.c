/* Module cases: the region against headers, blocks and the free end (25), and against a module's words (26). */
#include "module_cases.h"

/* A region that ends just before some bytes or has the first of them; that begins just after or has the last. */
static void region_before(uint64_t from)
{
	region_at(from - 32, 0);
	region_at(from - 31, 25);
}

static void region_after(uint64_t to)
{
	region_at(to, 0);
	region_at(to - 1, 25);
}

/* Two sections with bodies of 64 bytes in one file; the region is 32 bytes of one of them, so many bytes off. */
static void in_sections(uint64_t off, uint64_t number)
{
	volume_start(0);
	file_start(TYPE_FREEFORM);
	now.c = section_add(HOLDS_RAW, 64) + off;
	section_add(HOLDS_RAW, 64);
	file_end();
	now.z = 32;
	volume_end(8, 0);
	show(now.length, number, 0);
}

/* Refusal 25: about the headers of files and sections. */
void region_files(void)
{
	usual(KIND_TE);
	region_before(trial.file);
	region_before(trial.pad_file);
	region_after(trial.pad_file + FILE_HEADER);
	region_after(trial.words_file + FILE_HEADER);
	region_at(trial.pad_file - 4, 25);
	region_at(trial.file - 8, 25);
	for (uint64_t off = 2; off < 7; off++)
		in_sections(off, off < SECTION_HEADER ? 25 : 0);
	for (uint64_t off = 34; off < 40; off++)
		in_sections(off, off > 36 ? 25 : 0);
	in_sections(71, 25);
	in_sections(72, 0);
	in_sections(104, 0);
}

/* A module with 40 bytes of data before its words and 40 after its blocks, and a stub of 64 bytes where there is one. */
static void roomy(enum kind kind, uint64_t slack)
{
	start_module(&mod, kind);
	mod.lfanew = 128;
	mod.optional += slack;
	lay_head(&mod, 96);
	add_word(&mod, 4, mod.data + 40);
	add_word(&mod, 8, mod.data + 44);
	lay_blocks(&mod);
	mod.size += 40;
	mod.row[1].size += 40;
	around();
}

/* Refusal 25: about a module's headers; the bytes of the optional header that no directory has are header too. */
void region_heads(enum kind kind)
{
	roomy(kind, 0);
	region_after(trial.at + mod.data);
	region_at(trial.at + mod.data - 8, 25);
	if (kind == KIND_TE)
		return;
	region_after(trial.at + MZ_HEADER);
	region_before(trial.at + mod.lfanew);
	region_at(trial.at + MZ_HEADER + 8, 0);
	roomy(kind, 64);
	const uint64_t slack = trial.at + mod.table - 64;
	region_at(slack, 25);
	region_at(slack + 16, 25);
	region_at(slack + 32, 25);
	region_after(trial.at + mod.data);
}

/* Refusal 25: about a relocation block. */
void region_blocks(enum kind kind)
{
	roomy(kind, 0);
	region_before(trial.at + mod.blocks);
	region_after(trial.at + mod.blocks + mod.blocks_size);
	region_at(trial.at + mod.blocks - 8, 25);
}

/* Refusal 26: about a module's words, of four and of eight bytes. */
void region_words(enum kind kind)
{
	roomy(kind, 0);
	const uint64_t four = trial.at + mod.data + 40, eight = four + 4;
	region_at(four - 32, 0);
	region_at(four - 31, 26);
	region_at(four - 8, 26);
	region_at(eight - 1, 26);
	region_at(eight, 26);
	region_at(eight + 7, 26);
	region_at(eight + 8, 0);
	around();
	put(spot.H + 36, 4, trial.at + mod.data);
	put(spot.H + 40, 4, 41);
	put_marks(trial.at + mod.data);
	show(now.length, 26, 0);
	put(spot.H + 40, 4, 40);
	show(now.length, 0, 0);
	patch(0, trial.at + mod.data + 36);
	show(now.length, 14, 0);
}

/* A last file with 40 bytes, a free end, 40 bytes after the volume; the region is so many bytes after the free end's start. */
static void about_free(uint64_t bytes, uint64_t off, uint64_t number)
{
	volume_start(0);
	file_start(TYPE_RAW);
	room(40);
	file_end();
	volume_end(bytes, 40);
	now.c = free_from + off;
	now.z = 32;
	put_parts();
	show(now.length, number, 0);
}

/* Refusal 25: about the free end, which also has the region's marks for a byte that isn't 0xFF. */
void region_free(void)
{
	about_free(24, 0 - UINT64_C(33), 0);
	about_free(24, 0 - UINT64_C(32), 0);
	for (uint64_t d = 1; d < 32; d += 6)
		about_free(24, d - 32, 25);
	about_free(24, 0, 25);
	about_free(24, 22, 25);
	about_free(24, 23, 25);
	about_free(24, 24, 0);
	about_free(24, 30, 0);
	for (uint64_t d = 0; d < 40; d += 8)
		about_free(0, d - 32, 0);
}
