/* Module cases: refusal 25 for relocation blocks, refusal 27 for their entries. */
#include "module_cases.h"

/* A module with data of 64 bytes, then the bytes of these numbers as its blocks, then so many bytes more in its last section. */
static void stream(enum kind kind, const uint64_t (*number)[2], size_t count, uint64_t more)
{
	start_module(&mod, kind);
	lay_head(&mod, 64);
	for (size_t i = 0; i < count; i++) {
		set_number(mod.stream, mod.blocks_size, (unsigned)number[i][0], number[i][1]);
		mod.blocks_size += number[i][0];
	}
	lay_blocks(&mod);
	mod.size += more;
	mod.row[1].size += more;
}

/* The page of the data. */
static uint64_t page(void)
{
	return rva_of(&mod, mod.data) / 4096 * 4096;
}

/* Refusal 25: sizes of a block around 8 and between multiples of 4, the size being the only fault. */
void blocks_sizes(enum kind kind)
{
	usual(kind);
	const uint64_t size = trial.at + mod.blocks + 4;
	static const uint64_t wrong[] = { 0, 1, 4, 7, 9, 10, 11, 13, 14, 15, 17, 18, 20, 24, 0x80000010, 0x00010010, 0xFFFFFFFC, 0xFFFFFFF8, 0xFFFFFFFF };
	for (size_t i = 0; i < COUNT(wrong); i++)
		poke(size, 4, wrong[i], 25);
	poke(size, 4, 16, 0);
	poke(size, 4, TWO32 - mod.blocks, 25);
	poke(size, 4, TWO32 - rva_of(&mod, mod.blocks), 25);
	mod.directory_size = 8;
	poke(size, 4, 12, 0);
	poke(size, 4, 8, 0);
	poke(size, 4, 16, 0);
	poke(size, 4, 4, 25);
	poke(size, 4, 0, 25);
	poke(size, 4, 14, 25);
}

/* Refusal 25: a block that passes the directory's end is right while it lies in the module, PE32: in the same section's data. */
void blocks_ends(enum kind kind)
{
	const uint64_t block[][2] = { { 4, 0x7000 }, { 4, 12 }, { 4, 0 }, { 4, 0 }, { 4, 0 } };
	stream(kind, block, 2, 12);
	mod.directory_size = 1;
	around();
	const uint64_t size = trial.at + mod.blocks + 4;
	for (uint64_t says = 8; says < 29; says += 4) {
		stream(kind, block, 5, 0);
		mod.directory_size = 1;
		poke(size, 4, says, says > 20 ? 25 : 0);
		mod.directory_size = 8;
		poke(size, 4, says, says > 20 ? 25 : 0);
	}
	stream(kind, block, 5, 0);
	mod.directory_size = 1;
	mod.row[1].size -= 4;
	poke(size, 4, 16, 0);
	poke(size, 4, 20, kind == KIND_TE ? 0 : 25);
	mod.row[1].size -= 12;
	poke(size, 4, 8, kind == KIND_TE ? 0 : 25);
	mod.row[1].size += 16;
	mod.row[1].memory = 1;
	poke(size, 4, 20, 0);
}

/* "Blocks follow each other": two whole ones, then a third that only a longer directory reaches, right or not. */
void blocks_run(enum kind kind)
{
	usual(kind);
	const uint64_t in = page(), offset = rva_of(&mod, mod.data) % 4096;
	const uint64_t block[][2] = {
		{ 4, in }, { 4, 12 }, { 2, 0x3000 | offset }, { 2, 0 },
		{ 4, in }, { 4, 12 }, { 2, 0xA000 | (offset + 4) }, { 2, 0x3000 | (offset + 12) },
		{ 4, in }, { 4, 8 }, { 4, in }, { 4, 12 }, { 4, 0x5000 },
	};
	for (uint64_t size = 1; size < 46; size += size % 12 < 2 || size > 30 ? 1 : 10) {
		stream(kind, block, COUNT(block), 0);
		mod.directory_size = size;
		judge(size > 44 ? 25 : size > 32 ? 27 : 0);
	}
	stream(kind, block, 10, 0);
	mod.directory_size = 33;
	judge(25);
	mod.directory_size = 0xFFFFFFFF;
	judge(25);
	mod.directory_size = 32;
	judge(0);
}

/* "Page plus offset doesn't wrap": such a word is outside, an entry of type 0 is nowhere. */
void blocks_pages(enum kind kind)
{
	usual(kind);
	const uint64_t where = trial.at + mod.blocks, base = rva_of(&mod, mod.data + 16);
	static const uint64_t pages[] = { 0x1000, 0x7000, 0x00100000, 0x80000000, 0xFFFFF000, 0xFFFFFFFF };
	for (size_t i = 0; i < COUNT(pages); i++)
		poke(where, 4, pages[i], 26);
	for (size_t i = 0; i < COUNT(pages); i++) {
		around();
		put(where, 4, pages[i]);
		put(where + 8, 2, i);
		put(where + 10, 2, 0x0FFF);
		put(where + 12, 2, 0);
		show(now.length, 0, 0);
	}
	around();
	put(where, 4, TWO32 - 4096 + base);
	put(where + 8, 8, 0x3000 | 0xFFF);
	show(now.length, 26, 0);
	around();
	put(where, 4, base - 5);
	put(where + 8, 8, 0x3005 | UINT64_C(0xA009) << 16 | UINT64_C(0x3011) << 32);
	show(now.length, 0, 0);
}

/* Refusal 27: every type at the first, a middle and the last entry, and in the fourth, which is there to fill up. */
void blocks_types(enum kind kind)
{
	usual(kind);
	for (uint64_t type = 0; type < 16; type++) {
		const bool known = type == 0 || type == 3 || type == 10;
		for (uint64_t i = 0; i < 3; i++) {
			const uint64_t old = get(entry_at(i), 2) & 0x0FFF;
			if (type == 10 && i == 0)
				continue;
			poke(entry_at(i), 2, type << 12 | old, known ? 0 : 27);
		}
		poke(entry_at(3), 2, type << 12 | 0x0FFF, known ? type == 0 ? 0 : 26 : 27);
		poke(entry_at(3), 2, type << 12, known ? type == 0 ? 0 : 26 : 27);
	}
}

/* PE32: a block that begins in one section's data and would end in the next one's, which follows at once; a directory over two sections. */
void blocks_rows(enum kind kind)
{
	const uint64_t block[][2] = {
		{ 4, 0x7000 }, { 4, 12 }, { 4, 0 }, { 4, 0x7000 }, { 4, 16 }, { 8, 0 },
	};
	for (uint64_t cut = 1; cut < 28; cut += cut % 4 == 0 ? 1 : 3) {
		stream(kind, block, COUNT(block), 0);
		mod.row[0].size += cut;
		mod.row[1].rva += cut;
		mod.row[1].place += cut;
		mod.row[1].size -= cut;
		judge(kind == KIND_TE || cut == 12 ? 0 : 25);
	}
}

/* PE32: two sections, one after the other in memory, with the same bytes of the file: the block there is read twice, with its word or none. */
void blocks_folded(enum kind kind)
{
	usual(kind);
	const uint64_t block[][2] = { { 4, page() }, { 4, 12 }, { 2, 0x0111 }, { 2, 0x0000 } };
	for (unsigned i = 0; i < 2; i++) {
		stream(kind, block, COUNT(block), 0);
		if (i == 1)
			set_number(mod.stream, 8, 2, 0x3000 | rva_of(&mod, mod.data) % 4096);
		mod.rows = 2;
		mod.row[0] = (struct row){ .rva = 0x5000, .memory = 12, .place = mod.blocks, .size = 12 };
		mod.row[1] = (struct row){ .rva = 0x500C, .memory = 12, .place = mod.blocks, .size = 12 };
		mod.directory = 0x5000;
		mod.directory_size = 12;
		judge(i == 0 ? 0 : 26);
		mod.directory_size = 24;
		judge(i == 0 ? 0 : 26);
		mod.directory_size = 25;
		judge(25);
	}
	stream(kind, block, COUNT(block), 0);
	mod.row[0] = (struct row){ .rva = page(), .memory = 4096, .place = 0, .size = mod.size };
	set_number(mod.stream, 8, 2, 0x3000 | (page() + mod.data) % 4096);
	mod.row[1] = (struct row){ .rva = page() + mod.size, .memory = 12, .place = mod.blocks, .size = 12 };
	mod.directory = page() + mod.size;
	mod.directory_size = 12;
	judge(0);
	mod.directory = page() + mod.blocks;
	mod.directory_size = 24;
	judge(26);
}

/* Three blocks of 12 bytes at address 0x5000, each with one word; another block of 8 or 12 bytes in a section of its own, with this address and
   size, before theirs in the table or after it. */
static void hidden(enum kind kind, uint64_t rva, uint64_t size, uint64_t block, bool first)
{
	usual(kind);
	const uint64_t in = page(), data = rva_of(&mod, mod.data) % 4096;
	const uint64_t blocks[][2] = {
		{ 4, in }, { 4, 12 }, { 4, 0x3000 | data }, { 4, in }, { 4, 12 }, { 4, 0x3000 | (data + 8) },
		{ 4, in }, { 4, 12 }, { 4, 0x3000 | (data + 16) }, { 4, in }, { 4, block }, { 4, 0x3000 | (data + 24) }, { 8, 0 },
	};
	stream(kind, blocks, COUNT(blocks), ROW);
	mod.rows = 3;
	mod.data += ROW;
	mod.blocks += ROW;
	for (unsigned i = 0; i < 4; i++)
		set_number(mod.stream, 12 * i + 8, 2, 0x3000 | (data + ROW + 8 * i));
	mod.row[2] = (struct row){ .rva = in + mod.data, .memory = 64, .place = mod.data, .size = 64 };
	mod.row[first ? 0 : 1] = (struct row){ .rva = rva, .memory = size, .place = mod.blocks + 36, .size = size };
	mod.row[first ? 1 : 0] = (struct row){ .rva = 0x5000, .memory = 36, .place = mod.blocks, .size = 36 };
	mod.directory = 0x5000;
	mod.directory_size = 36;
	around();
}

/* PE32: the first two blocks' section ends before the third, or within it; another one goes on at that address elsewhere in the file. */
static void blocks_onwards(enum kind kind)
{
	static const uint64_t size[][2] = { { 24, 0 }, { 25, 0 }, { 31, 0 }, { 32, 25 }, { 35, 25 }, { 23, 25 } };
	for (size_t i = 0; i < COUNT(size); i++) {
		hidden(kind, 0x5018, 12, 12, false);
		mod.row[0].size = size[i][0];
		judge(size[i][1]);
		if (size[i][1] != 0)
			continue;
		patch_at(trial.at + mod.blocks + 24, 0);
		patch_at(trial.at + mod.blocks + 36, 26);
		patch_at(trial.at + mod.data + 24, 26);
		patch_at(trial.at + mod.data + 16, 0);
	}
}

/* PE32: the section that holds a block's first 8 bytes may be another for the next block; those that a section before it hides aren't read. */
void blocks_hidden(enum kind kind)
{
	static const uint64_t rva[] = { 0x4FF8, 0x5000, 0x5004, 0x500B, 0x500C, 0x500D, 0x5010, 0x5018, 0x501C, 0x5024 };
	static const uint64_t size[] = { 7, 8, 12, 16, 20 };
	hidden(kind, 0x500C, 12, 12, true);
	judge(0);
	patch_at(trial.at + mod.blocks + 12, 0);
	patch_at(trial.at + mod.blocks + 36, 26);
	hidden(kind, 0x500C, 12, 12, false);
	judge(0);
	patch_at(trial.at + mod.blocks + 12, 26);
	patch_at(trial.at + mod.blocks + 36, 0);
	hidden(kind, 0x500C, 8, 12, true);
	judge(25);
	hidden(kind, 0x500C, 7, 12, true);
	judge(0);
	hidden(kind, 0x500D, 12, 12, true);
	judge(0);
	blocks_onwards(kind);
	for (size_t i = 0; i < COUNT(rva) * COUNT(size); i++) {
		for (unsigned k = 0; k < 4; k++) {
			hidden(kind, rva[i / COUNT(size)], size[i % COUNT(size)], k % 2 == 0 ? 12 : 8, k / 2 == 0);
			if (kind == KIND_PE32 || k % 2 == 0)
				judge(ANY);
			if (kind == KIND_PE64)
				patch_at(trial.at + mod.blocks + 12, ANY);
		}
	}
}

/* #107: modules without relocations, and with entries of type 0 alone. */
void blocks_none(enum kind kind)
{
	const uint64_t skipped[][2] = { { 4, 0xFFFFF000 }, { 4, 24 }, { 8, 0 }, { 8, 0x0FFF0FFF0FFF0FFF } };
	stream(kind, skipped, COUNT(skipped), 0);
	judge(0);
	stream(kind, skipped, 0, 0);
	judge(0);
	usual(kind);
	mod.directory_size = 0;
	judge(0);
	mod.directory = 0xFFFFFFFF;
	judge(0);
	if (kind == KIND_TE)
		return;
	usual(kind);
	mod.directories = 5;
	judge(0);
	mod.directories = 0;
	judge(0);
}
