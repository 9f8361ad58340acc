/* The maker of images that other people's tools are tried on, each moved by the linked library, and the list of its parts.
   outside SEED COUNT FOLDER KINDS: N.bin, N.moved and N.parts for each, and a line "N BASE WHY" with the base that it was moved to; WHY is
   `same`, or what the other tool does otherwise by design. KINDS is te, or all (PE32 and PE32+ too). */
#include "../cases/module_volume.h"
#include "pajurenda.h"

#include <inttypes.h>
#include <stdlib.h>
#include <string.h>

/* Why coreboot's tool may give other bytes: it takes a TE module as linked for where it lies, and older ones know no 64-bit words there. */
enum why { SAME, UNLINKED, LONG_WORD, WHYS };
static const char *const why_name[WHYS] = { "same", "unlinked", "long" };

static uint8_t moved[SPACE];
static char folder[3072];
static bool all_kinds;

/* ---- one image ---- */

/* Where the first byte of the next module in the open file will be. */
static uint64_t next_module(void)
{
	return upto4(drafted()) + SECTION_HEADER;
}

/* A module of one kind, linked for where it lies; its data is at its own relative address, as coreboot's tool takes it. */
static void add_module(enum kind kind, enum why why)
{
	struct module m;
	uint64_t at = 0;
	start_module(&m, kind);
	m.stripped = TE_HEADER + below(next_module() / 8) * 8;
	m.base = now.base + next_module() - (kind == KIND_TE ? m.stripped - TE_HEADER : 0);
	if (why == UNLINKED)
		m.base += 0x1000 * (1 + below(5)) + 0x10;
	const uint64_t words = why == LONG_WORD ? 3 : below(12);
	lay_head(&m, 16 * (words + 1));
	for (uint64_t i = 0; i < words; i++) {
		const bool eight = (why == LONG_WORD && i == 1) || (kind == KIND_PE64 && below(2) == 0);
		add_word(&m, eight ? 8 : 4, m.data + at);
		at += 8 + below(8);
		if (below(5) == 0)
			add_entry(&m, ENTRY_SKIP, 0);
	}
	lay_blocks(&m);
	module_add(&m);
}

/* A kind that the tool at hand knows. */
static enum kind drawn_kind(void)
{
	return all_kinds ? (enum kind)below(KINDS) : KIND_TE;
}

/* A file that is passed over; coreboot's tool looks for sections in a raw file too, so there is one. */
static void add_other(void)
{
	if (below(2) == 0) {
		file_start(TYPE_RAW);
		section_add(HOLDS_RAW, below(40));
	} else {
		file_start(TYPE_PAD);
		const uint64_t bytes = below(40);
		memset(image + room(bytes), 0xFF, bytes);
	}
	file_end();
}

/* The region in a section of its own file. */
static void add_region(void)
{
	now.z = 64 + below(64);
	file_start(TYPE_FREEFORM);
	now.c = section_add(HOLDS_RAW, now.z) + SECTION_HEADER;
	file_end();
}

/* A file with one to three modules and other sections between them. */
static void add_modules(enum why why)
{
	file_start(below(2) == 0 ? TYPE_PEIM : TYPE_DRIVER);
	for (uint64_t i = 1 + below(3); i > 0; i--) {
		if (below(3) == 0)
			section_add(HOLDS_RAW, below(30));
		add_module(i == 1 && why != SAME ? KIND_TE : drawn_kind(), i == 1 ? why : SAME);
	}
	file_end();
}

/* The file with the patch words, each in eight bytes of a section. */
static void add_words(void)
{
	file_start(TYPE_FREEFORM);
	const uint64_t first = section_add(HOLDS_RAW, 8 * now.n + below(9)) + SECTION_HEADER;
	for (uint64_t k = 0; k < now.n; k++)
		point(k, first + 8 * k + below(5));
	file_end();
}

/* The volume fills the image; its files come in any order after the header file. */
static void draw_image(enum why why)
{
	volume_start(below(6));
	now.component = 1 + below(4);
	now.base = below(0x80000) * 4096;
	add_region();
	add_words();
	for (uint64_t i = 1 + below(3); i > 0; i--) {
		if (below(2) == 0)
			add_other();
		add_modules(i == 1 ? why : SAME);
	}
	volume_end(below(3) == 0 ? 0 : 8 * below(20), 0);
}

/* ---- its parts ---- */

/* The sections of one file, and its own line. */
static void list_file(FILE *to, uint64_t at, uint64_t size)
{
	fprintf(to, "File %08" PRIX64 " %08" PRIX64 "\n", at, size);
	if (image[at + 18] == TYPE_RAW || image[at + 18] == TYPE_PAD)
		return;
	for (uint64_t s = at + FILE_HEADER; s < at + size; s = upto4(s + number_in(image, s, 3)))
		fprintf(to, "Section %08" PRIX64 " %08" PRIX64 "\n", s, number_in(image, s, 3));
}

/* The volume, its files from the header file on, their sections, as #107 walks them. */
static void list_parts(FILE *to)
{
	fprintf(to, "Volume %08X %08" PRIX64 "\n", 0, now.V);
	for (uint64_t at = spot.f; at + FILE_HEADER <= now.V; at = upto8(at + number_in(image, at + 20, 3))) {
		if (image[at + 19] % 2 != 0)
			break;
		list_file(to, at, number_in(image, at + 20, 3));
	}
}

/* ---- the files ---- */

static FILE *open_for(uint64_t i, const char *kind)
{
	char path[4096];
	snprintf(path, sizeof path, "%s/%" PRIu64 ".%s", folder, i, kind);
	FILE *file = fopen(path, "wb");
	if (file == NULL)
		fail("a file cannot be opened");
	return file;
}

static void write_bytes(uint64_t i, const char *kind, const uint8_t *bytes)
{
	FILE *file = open_for(i, kind);
	if (fwrite(bytes, 1, now.length, file) != now.length || fclose(file) != 0)
		fail("a file cannot be written");
}

/* The library's release with an empty sheet. */
static void move_by_library(uint64_t base)
{
	uint8_t empty[EMPTY_SHEET], answer[PAJURENDA_RELEASE_BYTES], none[1] = { 0 };
	empty_sheet(empty);
	memcpy(moved, image, now.length);
	const uint32_t number = pajurenda_release(moved, (size_t)now.length, empty, sizeof empty, base, none, 0, 1, answer, sizeof answer);
	if (number != 0) {
		fprintf(stderr, "outside: the library refuses an image with %" PRIu32 "\n", number);
		exit(1);
	}
}

/* One image in its three files, and its line. */
static void make_one(uint64_t i)
{
	const enum why why = i % 8 == 6 ? UNLINKED : i % 8 == 7 ? LONG_WORD : SAME;
	draw_image(why);
	const uint64_t base = random_base();
	move_by_library(base);
	write_bytes(i, "bin", image);
	write_bytes(i, "moved", moved);
	FILE *parts = open_for(i, "parts");
	list_parts(parts);
	if (fclose(parts) != 0)
		fail("a file cannot be written");
	printf("%" PRIu64 " 0x%08" PRIX64 " %s\n", i, base, why_name[why]);
}

int main(int count, char **word)
{
	if (count != 5 || strlen(word[3]) >= sizeof folder) {
		fputs("usage: outside SEED COUNT FOLDER te|all\n", stderr);
		return 2;
	}
	strcpy(folder, word[3]);
	all_kinds = strcmp(word[4], "all") == 0;
	seed(strtoull(word[1], NULL, 10) * UINT64_C(0x9E3779B97F4A7C15) + 1);
	for (uint64_t i = 0; i < strtoull(word[2], NULL, 10); i++)
		make_one(i);
	return 0;
}
