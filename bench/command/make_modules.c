/*
 * The maker of images with modules for modules.sh, and of what the command must say of them.
 * make_modules three|inside IMAGE: the image; the lines of `read --modules --words` on it after the first eleven, to standard output.
 * make_modules many IMAGE: 64 modules with 30,000 relocation words in 1 MiB; no line.
 * make_modules endless IMAGE: 4 MiB that a reading takes minutes for; no line.
 */
#include <inttypes.h>
#include <string.h>

#include "../cases/module_volume.h"
#include "../make/large.h"

#define MOST_INNER 3
#define MOST_WORDS 8

/* A module as it was made: where it is, and its relocation words in the order of their entries. */
struct made {
	struct module m;
	uint64_t file, at, words;
	uint64_t place[MOST_WORDS];
	unsigned width[MOST_WORDS];
};

static struct made made[MOST_INNER];
static unsigned count;
static uint64_t open_at, named;

/* ---- the images ---- */

/* One more relocation word, so many bytes into the data. */
static void add(unsigned width, uint64_t offset)
{
	struct made *one = &made[count];
	add_word(&one->m, width, one->m.data + offset);
	one->place[one->words] = one->m.data + offset;
	one->width[one->words++] = width;
}

static void begin(enum kind kind, uint64_t base, uint64_t data)
{
	start_module(&made[count].m, kind);
	made[count].m.base = base;
	made[count].file = open_at;
	lay_head(&made[count].m, data);
}

static void finish(void)
{
	lay_blocks(&made[count].m);
	made[count].at = module_add(&made[count].m);
	count++;
}

/* The name of the open file, for people: 16 bits a letter, and a 0. */
static void add_name(uint64_t section)
{
	static const char name[] = "Core";
	for (uint64_t k = 0; k < sizeof name; k++)
		put(section + SECTION_HEADER + 2 * k, 2, (uint64_t)name[k]);
	named = open_at;
}

/* Raw bytes in a file of its own; the first one's place. */
static uint64_t add_raw(unsigned type, uint64_t bytes)
{
	const uint64_t file = file_start(type);
	room(bytes);
	file_end();
	return file + FILE_HEADER;
}

/* Every value that moves is the base and something, or wraps. */
static void fill(void)
{
	for (unsigned i = 0; i < count; i++)
		for (uint64_t k = 0; k < made[i].words; k++)
			put(made[i].at + made[i].place[k], made[i].width[k],
			    k % 2 == 0 ? now.base + 0x1000 * i + 16 * k : UINT64_MAX - 16 * k);
}

/* Three kinds in two files, the second's words not in order of position; three patch words, the last in the second module. */
static void make_three(void)
{
	volume_start(3);
	now.base = 0xFFF80000;
	const uint64_t pad = add_raw(TYPE_PAD, 29);
	open_at = file_start(TYPE_DRIVER);
	section_add(HOLDS_DXE_DEPEX, 7);
	begin(KIND_TE, 0x00000000FFF80100, 64);
	add(4, 16);
	add(8, 20);
	add(4, 28);
	finish();
	add_name(section_add(HOLDS_NAME, 10));
	begin(KIND_PE32, 0xFFF90000, 64);
	add(4, 24);
	add(4, 12);
	add(4, 16);
	finish();
	file_end();
	region_add(96);
	const uint64_t raw = add_raw(TYPE_RAW, 40);
	open_at = file_start(TYPE_PEIM);
	begin(KIND_PE64, 0x00000001FFF80000, 64);
	add(8, 8);
	add(4, 32);
	finish();
	file_end();
	point(0, pad + 4);
	point(1, raw + 30);
	point(2, made[1].at + made[1].m.data + 40);
	volume_end(24, 8);
	fill();
}

/* The region and a patch word in the data of the only module, which has no relocation word at all. */
static void make_inside(void)
{
	volume_start(1);
	now.base = 0x00100000;
	open_at = file_start(TYPE_PEIM);
	begin(KIND_TE, UINT64_MAX - 15, 160);
	made[0].m.rows = 1;
	finish();
	file_end();
	now.c = made[0].at + made[0].m.data + 40;
	now.z = 64;
	point(0, made[0].at + made[0].m.data + 8);
	volume_end(0, 0);
}

/* ---- what is said of them ---- */

/* A file's name in the form people write it. */
static void print_guid(uint64_t file)
{
	printf("%08" PRIX64 "-%04" PRIX64 "-%04" PRIX64 "-", get(file, 4), get(file + 4, 2), get(file + 6, 2));
	for (unsigned i = 8; i < 16; i++)
		printf("%02" PRIX64 "%s", get(file + i, 1), i == 9 ? "-" : "");
}

static void print_modules(void)
{
	static const char *const kinds[] = { [KIND_TE] = "TE", [KIND_PE32] = "PE32", [KIND_PE64] = "PE32+" };
	for (unsigned i = 0; i < count; i++) {
		printf("module %u file ", i);
		print_guid(made[i].file);
		printf("%s", made[i].file == named ? " name \"Core\"" : "");
		printf(" section %" PRIu64 " kind %s place %" PRIu64 " length %" PRIu64 " image base 0x%0*" PRIX64
		       " relocation words %" PRIu64 "\n", made[i].at - SECTION_HEADER, kinds[made[i].m.kind], made[i].at,
		       made[i].m.size, (int)(2 * base_width(made[i].m.kind)), made[i].m.base, made[i].words);
	}
}

static void print_word(uint64_t at, uint64_t width)
{
	printf(" at %" PRIu64 " width %" PRIu64 " is 0x%0*" PRIX64 "\n", at, width, (int)(2 * width), get(at, width));
}

static void print_words(void)
{
	printf("base word");
	print_word(spot.H + 28, 4);
	for (uint64_t k = 0; k < now.n; k++) {
		printf("patch word %" PRIu64 " entry 0x%08" PRIX64, k, get(spot.p + 12 + 4 * k, 4));
		print_word(place_of(k), 4);
	}
	for (unsigned i = 0; i < count; i++) {
		printf("module %u image base", i);
		print_word(made[i].at + base_place(&made[i].m), base_width(made[i].m.kind));
		for (uint64_t k = 0; k < made[i].words; k++) {
			printf("module %u relocation word %" PRIu64, i, k);
			print_word(made[i].at + made[i].place[k], made[i].width[k]);
		}
	}
}

static void print_all(void)
{
	uint64_t relocations = 0;
	for (unsigned i = 0; i < count; i++)
		relocations += made[i].words;
	printf("modules %u\nwords %" PRIu64 " (base word 1, patch words %" PRIu64 ", image bases %u, relocation words %" PRIu64 ")\n",
	       count, 1 + now.n + count + relocations, now.n, count, relocations);
	print_modules();
	print_words();
}

/* ---- all of it ---- */

static void write_image(const char *name, const uint8_t *bytes, uint64_t length)
{
	FILE *file = fopen(name, "wb");
	if (file == NULL || fwrite(bytes, 1, length, file) != length || fclose(file) != 0)
		fail("a file cannot be written");
}

int main(int words, char **word)
{
	static uint8_t large_image[4194304];
	struct large large;
	if (words != 3)
		return 2;
	if (strcmp(word[1], "many") == 0) {
		plan_large(&large, 1048576, 16);
		large_modules(&large, large_image, 64, 30000, false);
		write_image(word[2], large_image, 1048576);
		return 0;
	}
	if (strcmp(word[1], "endless") == 0) {
		plan_large(&large, sizeof large_image, 0);
		hostile[hostiles - 1].make(&large, large_image);
		write_image(word[2], large_image, sizeof large_image);
		return 0;
	}
	if (strcmp(word[1], "three") == 0)
		make_three();
	else
		make_inside();
	write_image(word[2], image, now.length);
	print_all();
	return 0;
}
