/* Module cases: refusal 25 for the headers of TE, PE32 and PE32+ modules and the data that they name. */
#include "module_cases.h"

/* How far the documents' places of a TE module's data are above ours. */
static uint64_t strip(void)
{
	return mod.kind == KIND_TE ? mod.stripped - TE_HEADER : 0;
}

/* Where the number of section headers stands, and its width. */
static uint64_t rows_place(void)
{
	return trial.at + (mod.kind == KIND_TE ? 4 : mod.lfanew + 6);
}

static unsigned rows_width(void)
{
	return mod.kind == KIND_TE ? 1 : 2;
}

/* Where the relocation directory stands. */
static uint64_t directory_place(void)
{
	return trial.at + (mod.kind == KIND_TE ? 24 : mod.opt + fixed_part(mod.kind) + 40);
}

/* A module of headers alone: so many section headers without data, so many directories. */
static void bare(enum kind kind, uint64_t rows, uint64_t directories)
{
	start_module(&mod, kind);
	mod.rows = rows;
	mod.directories = directories;
	mod.optional = fixed_part(kind) + 8 * directories;
	lay_head(&mod, 0);
	mod.size = mod.data;
	around();
}

/* The usual module without relocations: its data may lie anywhere. */
static void quiet(enum kind kind)
{
	usual(kind);
	mod.directory_size = 0;
	around();
}

/* Refusal 25: each byte of each mark, and the other kind's mark. */
void heads_marks(enum kind kind)
{
	usual(kind);
	judge(0);
	for (uint64_t i = 0; i < 2; i++) {
		flip(trial.at + i, 0x20, 25);
		flip(trial.at + i, UINT64_C(1) << i, 25);
	}
	poke(trial.at, 2, kind == KIND_TE ? 0x5A4D : 0x5A56, 25);
	poke(trial.at, 2, kind == KIND_TE ? 0x565A : 0x4D5A, 25);
	for (uint64_t i = 0; i < 4 && kind != KIND_TE; i++) {
		flip(trial.at + mod.lfanew + i, 0x20, 25);
		flip(trial.at + mod.lfanew + i, UINT64_C(1) << i, 25);
	}
}

/* Refusal 25: the module ends within its headers, its data or its blocks; every size near one of these ends. */
void heads_cut(enum kind kind)
{
	usual(kind);
	const struct module whole = mod;
	const uint64_t end[] = {
		0, 2, kind == KIND_TE ? 40 : 64, kind == KIND_TE ? 40 : mod.opt, mod.table, mod.data, mod.data + 32,
		mod.data + mod.data_size, mod.blocks + 8, mod.size,
	};
	for (size_t i = 0; i < COUNT(end); i++) {
		for (uint64_t d = 0; d < 3; d++) {
			mod = whole;
			mod.size = end[i] + d - (end[i] == 0 ? 0 : 1);
			judge(mod.size < whole.size ? 25 : 0);
		}
	}
	for (uint64_t rows = 0; rows < 3; rows++) {
		bare(kind, rows, 6 * (rows % 2));
		judge(0);
		mod.size -= 1;
		judge(25);
		mod.size += 2;
		judge(0);
	}
}

/* Refusal 25: as many section headers as fit, and one more; those without data have no further rule. */
void heads_rows(enum kind kind)
{
	const uint64_t most = kind == KIND_TE ? 255 : 65535;
	bare(kind, 2, 6);
	poke(rows_place(), rows_width(), 0, 0);
	poke(rows_place(), rows_width(), 1, 0);
	poke(rows_place(), rows_width(), 3, 25);
	poke(rows_place(), rows_width(), 4, 25);
	poke(rows_place(), rows_width(), most, 25);
	poke(rows_place(), rows_width(), most / 2 + 1, 25);
	mod.size += 39;
	judge(0);
	poke(rows_place(), rows_width(), 3, 25);
	mod.rows = 3;
	mod.size += 1;
	judge(0);
	poke(rows_place(), rows_width(), 4, 25);
}

/* The first section header's size and place, as the documents count it. */
static void data_at(uint64_t row, uint64_t size, uint64_t place, uint64_t number)
{
	around();
	put(trial.at + mod.table + ROW * row + 16, 4, size);
	put(trial.at + mod.table + ROW * row + 20, 4, place);
	show(now.length, number, 0);
}

/* Refusal 25: a section's data inside the module, to its last byte and from its first; none where the size is 0. */
void heads_data(enum kind kind)
{
	quiet(kind);
	const uint64_t first = strip(), end = mod.size + strip();
	for (uint64_t row = 0; row < 2; row++) {
		data_at(row, 16, end - 16, 0);
		data_at(row, 16, end - 15, 25);
		data_at(row, 17, end - 16, 25);
		data_at(row, 1, end - 1, 0);
		data_at(row, 1, end, 25);
		data_at(row, 0, end, 0);
		data_at(row, 0, end + 1, 0);
		data_at(row, mod.size, first, 0);
		data_at(row, mod.size + 1, first, 25);
		data_at(row, mod.size, first + 1, 25);
		if (first != 0) {
			data_at(row, 1, first - 1, 25);
			data_at(row, 2, first - 1, 25);
			data_at(row, 0, first - 1, 0);
			data_at(row, 0, 0, 0);
			data_at(row, 16, 0, 25);
			data_at(row, TWO32 - first, first, 25);
		}
		data_at(row, 0, 0xFFFFFFFF, 0);
		data_at(row, 1, 0xFFFFFFFF, 25);
		data_at(row, 0x40, 0xFFFFFFF0, 25);
		data_at(row, mod.size, 0xFFFFFFFF, 25);
		data_at(row, 16, 0x01000000 + end - 16, 25);
		data_at(row, 0x01000010, end - 16, 25);
		data_at(row, 0xFFFFFFFF, first, 25);
		data_at(row, 0xFFFFFFFF, first + 1, 25);
		data_at(row, TWO32 - end + 32, end, 25);
		data_at(row, 0x80000000, 0x80000000, 25);
		data_at(row, 0x80000010, 0x80000000 + first, 25);
	}
}

/* #107: bytes of the headers that no rule speaks of: names, sizes in memory, what follows a section's place; machine, entry point, sums. */
void heads_unjudged(enum kind kind)
{
	static const uint64_t row[] = { 0, 7, 8, 11, 24, 27, 28, 32, 34, 36, 39 };
	static const uint64_t te[] = { 2, 3, 5, 8, 11, 12, 15, 16, 23, 32, 36, 39 };
	static const uint64_t opt[] = { 2, 3, 4, 8, 16, 20, 32, 36, 40, 44, 48, 56, 60, 64, 68, 70, 72, 84 };
	static const uint64_t file[] = { 4, 5, 8, 11, 12, 16, 22, 23 };
	usual(kind);
	for (size_t i = 0; i < 2 * COUNT(row); i++)
		flip(trial.at + mod.table + ROW * (i % 2) + row[i / 2], 0xFF, 0);
	for (size_t i = 0; i < COUNT(te) && kind == KIND_TE; i++)
		flip(trial.at + te[i], 0xFF, 0);
	for (size_t i = 0; i < COUNT(opt) && kind != KIND_TE; i++)
		flip(trial.at + mod.opt + opt[i], 0xFF, 0);
	for (size_t i = 0; i < COUNT(file) && kind != KIND_TE; i++)
		flip(trial.at + mod.lfanew + file[i], 0xFF, 0);
	for (uint64_t i = 2; i < 60 && kind != KIND_TE; i += 7)
		flip(trial.at + i, 0xFF, 0);
}

/* The relocation directory's relative address and size. */
static void directory_at(uint64_t rva, uint64_t size, uint64_t number)
{
	around();
	put(directory_place(), 4, rva);
	put(directory_place() + 4, 4, size);
	show(now.length, number, 0);
}

/* The usual module with one block of 8 bytes at its very end and nothing else. */
static void one_empty_block(enum kind kind)
{
	start_module(&mod, kind);
	lay_head(&mod, 64);
	mod.blocks_size = 8;
	set_number(mod.stream, 0, 4, 0x7000);
	set_number(mod.stream, 4, 4, 8);
	lay_blocks(&mod);
	around();
}

/* Refusal 25: the first block whole inside the module, PE32: inside one section's data; a size of 0 is no directory. */
void heads_directory(enum kind kind)
{
	one_empty_block(kind);
	const uint64_t rva = mod.directory;
	judge(0);
	for (uint64_t size = 1; size < 9; size++)
		directory_at(rva, size, 0);
	directory_at(rva, 9, 25);
	directory_at(rva, 16, 25);
	directory_at(rva, 0x01000000, 25);
	directory_at(rva, 0x80000000, 25);
	directory_at(0x01000000 + rva, 8, 25);
	directory_at(rva, 0xFFFFFFFF, 25);
	for (uint64_t d = 1; d < 9; d += d < 2 ? 1 : 3)
		directory_at(rva + d, 8, 25);
	directory_at(rva + 1000, 8, 25);
	directory_at(0xFFFFFFFF, 8, 25);
	directory_at(0xFFFFFFF8, 8, 25);
	directory_at(0xFFFFFFF9, 1, 25);
	directory_at(TWO32 - 8 + rva, 8, 25);
	directory_at(0x80000000 + rva, 1, 25);
	directory_at(0, 1, 25);
	directory_at(0xFFFFFFFF, 0, 0);
	directory_at(rva + 1, 0, 0);
	directory_at(0, 0, 0);
	if (kind == KIND_TE) {
		directory_at(mod.stripped - TE_HEADER - 1, 8, 25);
		directory_at(mod.stripped - TE_HEADER - 8, 8, 25);
	}
}

/* TE: any StrippedSize where data and blocks are shifted by it; one more or less shifts the data. */
void heads_stripped(void)
{
	static const uint64_t stripped[] = { 0, 1, 39, 40, 41, 64, 0x1B8, 0x238, 4095, 0x8000, 0xFFFF };
	for (size_t i = 0; i < COUNT(stripped); i++) {
		start_module(&mod, KIND_TE);
		mod.stripped = stripped[i];
		lay_head(&mod, 24);
		add_word(&mod, 8, mod.data + 4);
		add_word(&mod, 4, mod.data + 20);
		lay_blocks(&mod);
		judge(0);
		mod.directory_size = 0;
		if (stripped[i] < 0xFFFF)
			poke(trial.at + 6, 2, stripped[i] + 1, 0);
		if (stripped[i] > 0)
			poke(trial.at + 6, 2, stripped[i] - 1, 25);
	}
	quiet(KIND_TE);
	poke(trial.at + 6, 2, mod.stripped + mod.data, 0);
	poke(trial.at + 6, 2, mod.stripped + mod.data + 1, 25);
	poke(trial.at + 6, 2, 0, 25);
	poke(trial.at + 6, 2, 0xFFFF, 25);
}

/* A whole module with its second header at this place. */
static void second_header(enum kind kind, uint64_t lfanew, uint64_t number)
{
	start_module(&mod, kind);
	mod.lfanew = lfanew;
	lay_head(&mod, 20);
	add_word(&mod, 4, mod.data + 3);
	lay_blocks(&mod);
	judge(number);
}

/* PE32: where the second header may be: anywhere whole inside; 26 where the image base is then a byte of the first. */
void heads_lfanew(enum kind kind)
{
	static const uint64_t lfanew[] = { 64, 65, 66, 67, 72, 120, 128, 333 };
	const uint64_t lowest = kind == KIND_PE32 ? 12 : 16;
	for (size_t i = 0; i < COUNT(lfanew); i++)
		second_header(kind, lfanew[i], 0);
	second_header(kind, lowest, 0);
	second_header(kind, lowest + 1, 0);
	second_header(kind, lowest + 5, 0);
	for (uint64_t less = 1; less < 9; less += less < 4 ? 1 : 2)
		second_header(kind, lowest - less, 26);
	usual(kind);
	const uint64_t end = mod.size;
	const uint64_t wrong[] = {
		0, 1, 4, 60, 63, 65, 68, 128, end, end - 1, end - 3, end - 4, end - 23, end - 24, end - 25, end + 64, 0x10000 + 64,
		0x80000040, 0xFFFFFFFF, 0xFFFFFFFC, 0xFFFFFFE8, 0xFFFFFFE7, 0xFFFFFFC0, 0xFFFFFF68, 0x01000040, 0x7FFFFFFF,
		TWO32 - trial.at, TWO32 - trial.at + 40,
	};
	for (size_t i = 0; i < COUNT(wrong); i++)
		poke(trial.at + 60, 4, wrong[i], 25);
	bare(kind, 0, 0);
	poke(trial.at + 60, 4, mod.lfanew + 1, 25);
	mod.size += 1;
	judge(0);
}

/* A whole module with so many directories and an optional header of so many bytes. */
static void optional_of(enum kind kind, uint64_t directories, uint64_t bytes, uint64_t number)
{
	start_module(&mod, kind);
	mod.directories = directories;
	mod.optional = bytes;
	lay_head(&mod, 20);
	add_word(&mod, 4, mod.data + 8);
	lay_blocks(&mod);
	judge(number);
}

/* PE32: the fixed part and every directory fit SizeOfOptionalHeader, which lies inside the module. */
void heads_optional(enum kind kind)
{
	static const uint64_t directories[] = { 0, 1, 4, 5, 6, 7, 16, 17 };
	const uint64_t fixed = fixed_part(kind);
	for (size_t i = 0; i < COUNT(directories); i++) {
		const uint64_t right = fixed + 8 * directories[i];
		optional_of(kind, directories[i], right, 0);
		optional_of(kind, directories[i], right - 1, 25);
		optional_of(kind, directories[i], right + 1, 0);
		optional_of(kind, directories[i], right + 40, 0);
		optional_of(kind, directories[i] + 1, right + 7, 25);
	}
	optional_of(kind, 0, 0, 25);
	optional_of(kind, 0, 2, 25);
	optional_of(kind, 0, 40, 25);
	usual(kind);
	const uint64_t count = trial.at + mod.opt + fixed - 4, size = trial.at + mod.lfanew + 20;
	static const uint64_t many[] = { 7, 8, 0x20000000, 0x20000006, 0x1FFFFFFF, 0x80000006, 0x10000006, 0xFFFFFFFF, 0x00010006 };
	for (size_t i = 0; i < COUNT(many); i++)
		poke(count, 4, many[i], 25);
	for (uint64_t few = 0; few < 6; few++)
		poke(count, 4, few, 0);
	poke(size, 2, 0xFFFF, 25);
	poke(size, 2, 0x8000 + mod.optional, 25);
	bare(kind, 0, 6);
	mod.size += 30;
	around();
	poke(size, 2, mod.size - mod.opt, 0);
	poke(size, 2, mod.size - mod.opt + 1, 25);
}

/* PE32: the optional header's kind; with the other one its fields are read elsewhere, and no directory is counted there. */
void heads_kind(enum kind kind)
{
	static const uint64_t wrong[] = { 0, 1, 0x107, 0x10A, 0x10C, 0x11B, 0x20A, 0x20C, 0x30B, 0x0B01, 0x0B02, 0x000B, 0x810B, 0xFFFF };
	usual(kind);
	for (size_t i = 0; i < COUNT(wrong); i++)
		poke(trial.at + mod.opt, 2, wrong[i], 25);
	poke(trial.at + mod.opt, 2, 0x10B, 0);
	poke(trial.at + mod.opt, 2, 0x20B, 0);
}
