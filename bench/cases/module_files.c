/* Module cases: refusal 25 for files and sections, and where the walk ends. */
#include "module_cases.h"

#include <string.h>

/* ---- files ---- */

/* Refusal 25: one file's attributes, its sum, and the two bytes outside the sum; any name. */
static void header_of(uint64_t file)
{
	for (uint64_t bit = 0; bit < 8; bit++)
		poke_file(file, 19, 1, UINT64_C(1) << bit, bit == 0 ? 25 : 0);
	poke_file(file, 19, 1, 0xFE, 0);
	poke_file(file, 19, 1, 0xFF, 25);
	for (uint64_t i = 0; i < FILE_HEADER; i++)
		if (i > 15 || i % 5 == 0)
			flip(file + i, i % 3 == 0 ? 0x80 : 0x04, i == 17 || i == 23 ? 0 : 25);
	flip(file + 17, 0xFF, 0);
	flip(file + 23, 0xFF, 0);
	poke_file(file, 0, 8, UINT64_MAX, 0);
	poke_file(file, 0, 8, 0, 0);
	around();
	memcpy(image + file, image + spot.f, 16);
	sum_file(image, file);
	show(now.length, 0, 0);
}

/* Refusal 25: rule 3 for each file after the header file, raw and pad files too. */
void files_header(void)
{
	usual(KIND_TE);
	header_of(region_file);
	header_of(trial.words_file);
	header_of(trial.pad_file);
	header_of(trial.file);
}

/* Refusal 25: a body that is no row of sections is passed over in raw and pad files alone. */
void files_types(void)
{
	static const uint64_t type[] = {
		0x00, 0x01, 0x02, 0x03, 0x04, 0x05, 0x06, 0x07, 0x08, 0x09, 0x0B, 0x0E, 0x11, 0x7F, 0x80, 0xC0, 0xE0, 0xEF,
		0xF0, 0xF1, 0xFE, 0xFF,
	};
	usual(KIND_PE32);
	for (size_t i = 0; i < COUNT(type); i++) {
		const bool passed = type[i] == TYPE_RAW || type[i] == TYPE_PAD;
		poke_file(trial.words_file, 18, 1, type[i], passed ? 0 : 25);
		poke_file(trial.file, 18, 1, type[i], 0);
	}
}

/* A file of so many bytes after the region's, then one of 24 bytes, the bytes between them not 0xFF; the second stands so far off. */
static void two_files(uint64_t size, uint64_t off, uint64_t number)
{
	volume_start(1);
	region_add(32);
	const uint64_t first = file_start(TYPE_RAW);
	room(size - FILE_HEADER);
	point(0, first + FILE_HEADER);
	file_end();
	room(off);
	file_start(TYPE_RAW);
	file_end();
	volume_end(8, 3);
	show(now.length, number, 0);
}

/* #107: the next file stands at the next multiple of 8, whatever bytes lie before it. */
void files_places(void)
{
	for (uint64_t size = 40; size < 49; size++)
		two_files(size, 0, 0);
	for (uint64_t size = 40; size < 49; size += 3)
		two_files(size, 8, 25);
	two_files(40, 1, 25);
	two_files(41, 7, 0);
	two_files(41, 8, 25);
}

/* The volume's last file, of a type and so many bytes; V is so many bytes after its start; its size field says another number. */
static void last_file(unsigned type, uint64_t bytes, uint64_t says, uint64_t number)
{
	volume_start(0);
	region_add(33);
	const uint64_t file = file_start(type);
	room(bytes - FILE_HEADER);
	volume_end(0, 5);
	put(file + 20, 3, says);
	sum_file(image, file);
	show(now.length, number, 0);
}

/* Refusal 25: s from 24, f+s against V, f+24 against V; no free end. */
void files_last(void)
{
	static const unsigned type[] = { TYPE_RAW, TYPE_PAD, TYPE_PEIM };
	for (size_t i = 0; i < COUNT(type); i++) {
		last_file(type[i], 24, 24, 0);
		last_file(type[i], 24, 23, 25);
		last_file(type[i], 24, 25, 25);
		last_file(type[i], 24, 0, 25);
		last_file(type[i], 24, 0xFFFFFF, 25);
		last_file(type[i], 24, 0x800018, 25);
		last_file(type[i], 31, 24, 25);
		last_file(type[i], 32, 24, 25);
	}
	for (uint64_t bytes = 25; bytes < 33; bytes++) {
		last_file(TYPE_RAW, bytes, bytes, 0);
		last_file(TYPE_RAW, bytes, 25, 0);
		last_file(TYPE_PAD, bytes, bytes + 1, 25);
	}
	last_file(TYPE_RAW, 33, 25, 25);
	for (uint64_t V = 1; V < 24; V += V < 20 ? 6 : 1)
		last_file(TYPE_RAW, V, 24, 25);
}

/* A volume with so many free bytes, one of which may be another. */
static void free_end(uint64_t bytes, uint64_t fault, uint64_t value, uint64_t number)
{
	volume_start(0);
	region_add(40 + bytes % 8);
	volume_end(bytes, 4);
	if (fault < bytes)
		put(free_from + fault, 1, value);
	show(now.length, number, 0);
}

/* #107: the walk ends where only 0xFF bytes remain, of any count; what follows the volume isn't looked at. */
void files_free(void)
{
	static const uint64_t bytes[] = { 0, 1, 2, 7, 8, 9, 16, 23, 24, 25, 31, 32, 200 };
	for (size_t i = 0; i < COUNT(bytes); i++) {
		free_end(bytes[i], bytes[i], 0, 0);
		if (bytes[i] == 0)
			continue;
		free_end(bytes[i], 0, 0xFE, 25);
		free_end(bytes[i], bytes[i] - 1, 0x7F, 25);
		free_end(bytes[i], bytes[i] / 2, 0, 25);
	}
	usual(KIND_TE);
	poke(free_from + 15, 1, 0xFE, 25);
	poke(free_from + 16, 1, 0x00, 0);
	poke(free_from, 8, 0, 25);
	around();
	make_file(image, free_from, 24, TYPE_RAW, 9);
	show(now.length, 25, 0);
	put(32, 8, now.V + 8);
	put(free_from + 24, 8, UINT64_MAX);
	mend();
	show(now.length, 0, 0);
}

/* The header file with so many bytes after its section: a section of this size there, or none where it is 0. */
static void first_file(uint64_t more_section, uint64_t more, unsigned type, uint64_t size, uint64_t number)
{
	volume_start(0);
	now.more_section = more_section;
	now.more_file = more;
	lay_out();
	room(more_section + more);
	region_add(48);
	volume_end(8, 0);
	put(spot.f + 18, 1, type);
	if (size != 0)
		make_section(image, upto4(spot.f + FILE_HEADER + spot.S), size, HOLDS_RAW);
	mend();
	show(now.length, number, 0);
}

/* #107: the walk begins in the header file, after its section: none, one or several more, or it is raw or a pad file. */
void files_first(void)
{
	static const unsigned type[] = { TYPE_FREEFORM, TYPE_PEIM, TYPE_RAW, TYPE_PAD };
	for (size_t i = 0; i < COUNT(type); i++) {
		const uint64_t fault = i < 2 ? 25 : 0;
		first_file(0, 0, type[i], 0, 0);
		for (uint64_t more = 1; more < 4; more++)
			first_file(0, more, type[i], 0, fault);
		first_file(0, 4, type[i], 4, 0);
		first_file(0, 4, type[i], 3, fault);
		first_file(0, 4, type[i], 5, fault);
		first_file(0, 20, type[i], 20, 0);
		first_file(0, 20, type[i], 21, fault);
		first_file(0, 20, type[i], 0xFFFFFF, fault);
		first_file(0, 20, type[i], 19, 0);
		first_file(0, 20, type[i], 17, 0);
		first_file(0, 20, type[i], 13, fault);
		for (uint64_t more = 1; more < 4; more++) {
			first_file(more, 4 - more, type[i], 0, 0);
			first_file(more, 5 - more, type[i], 0, fault);
			first_file(more, 8 - more, type[i], 4, 0);
			first_file(more, 0, type[i], 0, 0);
		}
	}
}

/* ---- sections ---- */

/* A file whose only section has a body of so many bytes; its size field says another number. */
static void one_section(unsigned type, uint64_t body, uint64_t says, uint64_t number)
{
	volume_start(0);
	region_add(32);
	file_start(TYPE_FREEFORM);
	const uint64_t section = section_add(type, body);
	file_end();
	volume_end(24, 0);
	put(section, 3, says);
	show(now.length, number, 0);
}

/* Refusal 25: a section below 4 bytes, or past its file; size 0 doesn't hold the walk. */
void sections_sizes(void)
{
	one_section(HOLDS_RAW, 0, 4, 0);
	one_section(HOLDS_RAW, 12, 16, 0);
	for (uint64_t says = 0; says < 4; says++) {
		one_section(HOLDS_RAW, 0, says, 25);
		one_section(HOLDS_RAW, 12, says, 25);
		one_section(HOLDS_TE, 12, says, 25);
	}
	one_section(HOLDS_RAW, 0, 5, 25);
	one_section(HOLDS_RAW, 12, 17, 25);
	one_section(HOLDS_RAW, 12, 0xFFFFFF, 25);
	one_section(HOLDS_RAW, 12, 0x010010, 25);
	one_section(HOLDS_RAW, 12, 0x800000, 25);
	one_section(HOLDS_PE32, 0, 4, 25);
	one_section(HOLDS_TE, 0, 4, 25);
	one_section(HOLDS_PE32, 200, 0xFFFFFF, 25);
	one_section(HOLDS_TE, 200, 0xFFFFFF, 25);
}

/* #107: sections of any other type are passed over, whatever they hold; 0x10 and 0x12 are modules. */
void sections_types(void)
{
	for (uint64_t type = 0; type < 256; type += type < 0x20 ? 1 : 37)
		one_section((unsigned)type, 100, 104, type == HOLDS_PE32 || type == HOLDS_TE ? 25 : 0);
	usual(KIND_TE);
	poke(trial.section + 3, 1, HOLDS_PE32, 25);
	poke(trial.section + 3, 1, HOLDS_RAW, 0);
	usual(KIND_PE64);
	poke(trial.section + 3, 1, HOLDS_TE, 25);
	poke(trial.section + 3, 1, 0x11, 0);
}

/* Two sections, the first with a body of so many bytes; then so many bytes more in the file. */
static void two_sections(uint64_t body, uint64_t more, uint64_t number)
{
	volume_start(0);
	region_add(32);
	file_start(TYPE_DRIVER);
	section_add(HOLDS_NAME, body);
	section_add(HOLDS_DXE_DEPEX, 3);
	room(more);
	file_end();
	volume_end(8, 0);
	show(now.length, number, 0);
}

/* #107: sections stand at multiples of 4; one to three bytes after the last are a section that doesn't fit. */
void sections_left(void)
{
	for (uint64_t body = 0; body < 9; body++)
		two_sections(body, 0, 0);
	two_sections(4, 1, 0);
	for (uint64_t more = 2; more < 5; more++)
		two_sections(4, more, 25);
}
