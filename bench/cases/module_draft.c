/* The usual volume around one module on trial, and what is put into it. */
#include "module_cases.h"

#include <string.h>

struct module mod;
struct trial trial;

/* Three words in data of 64 bytes, 16 of them before the first word and 32 after the last; the middle one has eight bytes. */
void usual(enum kind kind)
{
	start_module(&mod, kind);
	lay_head(&mod, 64);
	add_word(&mod, 4, mod.data + 16);
	add_word(&mod, 8, mod.data + 20);
	add_word(&mod, 4, mod.data + 28);
	lay_blocks(&mod);
	around();
}

/* The region's file, a raw file with two patch words, a pad file, the module's file with two other sections, a free end. */
void around(void)
{
	volume_start(2);
	region_add(64);
	trial.words_file = file_start(TYPE_RAW);
	trial.words = room(72) + 32;
	file_end();
	point(0, trial.words);
	point(1, trial.words + 4);
	trial.pad_file = file_start(TYPE_PAD);
	memset(image + room(40), 0xFF, 40);
	file_end();
	trial.file = file_start(TYPE_PEIM);
	section_add(HOLDS_PEI_DEPEX, 6);
	trial.at = module_add(&mod);
	trial.section = trial.at - SECTION_HEADER;
	section_add(HOLDS_NAME, 10);
	file_end();
	volume_end(16, 8);
}

/* The usual volume with the module as it is now. */
void judge(uint64_t number)
{
	around();
	show(now.length, number, 0);
}

/* A number put into it; no file's header has a byte of it. */
void poke(uint64_t place, unsigned width, uint64_t value, uint64_t number)
{
	around();
	put(place, width, value);
	show(now.length, number, 0);
}

/* A number put into a file's header, the sum made right again. */
void poke_file(uint64_t file, uint64_t offset, unsigned width, uint64_t value, uint64_t number)
{
	around();
	put(file + offset, width, value);
	sum_file(image, file);
	show(now.length, number, 0);
}

/* A byte of it turned by a mask; sums stay. */
void flip(uint64_t place, uint64_t mask, uint64_t number)
{
	around();
	put(place, 1, get(place, 1) ^ mask);
	show(now.length, number, 0);
}

/* "Where an entry points": entry k of the patch table. */
void patch(uint64_t k, uint64_t place)
{
	put(spot.p + 12 + 4 * k, 4, word(place, k % 2 == 1, 0));
}

/* The second patch word somewhere else. */
void patch_at(uint64_t place, uint64_t number)
{
	around();
	patch(1, place);
	show(now.length, number, 0);
}

/* A region of 32 bytes somewhere else. */
void region_at(uint64_t c, uint64_t number)
{
	around();
	put(spot.H + 36, 4, c);
	put(spot.H + 40, 4, 32);
	put_marks(c);
	show(now.length, number, 0);
}

/* ---- entries ---- */

uint64_t entry_at(uint64_t i)
{
	return trial.at + mod.blocks + 8 + 2 * i;
}

uint64_t entry_for(unsigned type, uint64_t place)
{
	return type << 12 | rva_of(&mod, place) % 4096;
}
