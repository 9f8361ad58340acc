/* The maker of further pairs that the audit's program is run on: its lengths, a missing file, the edges of the list.
   cc -std=c11 second.c build.c audit_runs.c -o audit_runs
   audit_runs 0..9 FOLDER: vendor.bin and shipped.bin of that run go into the folder, its output to standard output. */
#include "cases.h"
#include "pair_vendor.h"
#include "../second/second.h"

#include <inttypes.h>
#include <string.h>

#define PLACES 256
#define LONGEST UINT64_C(28672)

/* How long the two files are; one that isn't to be there has length NONE. */
#define NONE UINT64_MAX
static uint64_t vendor_length, shipped_length;

/* ---- the output, by the second reader ---- */

/* A file that isn't there is empty. */
static uint64_t bytes_of(uint64_t length)
{
	return length == NONE ? 0 : length;
}

/* The number that the lengths alone decide, or 0: the vendor's own goes first. */
static uint64_t length_number(void)
{
	if (bytes_of(vendor_length) > LONGEST)
		return 1;
	const uint64_t number = second_read(image, bytes_of(vendor_length)).number;
	if (number == 0 && bytes_of(shipped_length) > LONGEST)
		return 19;
	return number;
}

/* The places, each with its mark. */
static void print_places(const uint32_t *place, uint64_t count)
{
	for (uint64_t i = 0; i < count; i++)
		printf("%c %" PRIu64 "\n", place[i] < TWO24 ? 'S' : 'X', place[i] % TWO24);
}

/* "The audit": the program's whole output for the pair. */
static void print_output(void)
{
	uint32_t place[PLACES];
	struct second_audited a = { .number = length_number() };
	if (a.number == 0)
		a = second_audit(image, bytes_of(vendor_length), sheet, bytes_of(shipped_length), place, PLACES);
	if (a.number != 0) {
		printf("refused %" PRIu64 "\n", a.number);
		return;
	}
	printf("base %08" PRIX64 "\nsettings %" PRIu64 "\nstrays %" PRIu64 "\nbits %" PRIu64 "\n",
	       a.base, a.settings, a.strays, a.bits);
	print_places(place, a.settings + a.strays);
	printf("verdict %s\n", a.explained != 0 ? "explained" : "unexplained");
}

/* ---- the pairs ---- */

/* A vendor image of this length and base, of header revision 6; a module of this kind between the words. */
static void build_at(uint64_t length, uint64_t base, enum kind kind)
{
	start_small();
	now.module = 1 + kind;
	now.length = length;
	now.V = length;
	now.base = base;
	now.header_revision = 6;
	now.L = 80;
	now.extended = 0x0102;
	build_vendor();
}

/* "Moving": the shipped file is the vendor's image moved; both are as long as it. */
static void ship(uint64_t base)
{
	uint8_t empty[EMPTY_SHEET];
	empty_sheet(empty);
	if (second_read(image, now.length).number != 0)
		fail("a vendor's image that isn't whole");
	memcpy(sheet, image, now.length);
	if (second_release(sheet, now.length, empty, EMPTY_SHEET, base, owners, own_all(), 1).number != 0)
		fail("the vendor's image can't be moved");
	vendor_length = now.length;
	shipped_length = now.length;
}

/* One byte of the shipped file differs. */
static void turn(uint64_t at, uint64_t mask)
{
	put_sheet(at, 1, get_sheet(at, 1) ^ mask);
}

/* A whole pair, moved. */
static void make_pair(uint64_t length)
{
	build_at(length, 0xFFF80000, length % 2 == 0 ? KIND_PE64 : KIND_TE);
	ship(0x00100000);
}

/* The base with eight digits that count, and nothing else. */
static void make_top(void)
{
	build_at(8192, 0x00100000, KIND_PE32);
	ship(0xFFF80000);
}

/* The first and the last byte, both sides of each end of the settings, and in and beside the image base and a word of the module. */
static void make_edges(void)
{
	build_at(8192, 0xFFF80000, KIND_TE);
	ship(0x00100000);
	const uint64_t first = now.c + 32, end = now.c + now.z, word = spot.m + inside.data + 5;
	const uint64_t at[] = {
		0, first - 1, first, end - 1, end, spot.m + 15, spot.m + 16, spot.m + 23, spot.m + 24,
		word - 1, word, word + 7, word + 8, now.length - 1,
	};
	for (size_t i = 0; i < COUNT(at); i++)
		turn(at[i], i + 1);
}

/* Both files as long as they may be. */
static void make_whole(void)
{
	make_pair(LONGEST);
	turn(4200, 0xFF);
	turn(LONGEST - 1, 0x01);
}

/* Both one byte longer, and otherwise a pair. */
static void make_vendor_long(void)
{
	make_pair(LONGEST + 1);
}

/* The shipped file has one byte more than an image of 28,672. */
static void make_shipped_long(void)
{
	make_pair(LONGEST);
	put_sheet(LONGEST, 1, 0xA5);
	shipped_length = LONGEST + 1;
}

/* A vendor's image of refusal 14 beside such a file. */
static void make_refused_long(void)
{
	make_pair(8192);
	put(spot.p + 12 + 4 * 2, 4, word(4501, true, 15));
	if (second_read(image, now.length).number != 14)
		fail("not refusal 14");
	shipped_length = LONGEST + 1;
}

static void make_no_vendor(void)
{
	make_pair(8192);
	vendor_length = NONE;
}

static void make_no_shipped(void)
{
	make_pair(8192);
	shipped_length = NONE;
}

/* 200 settings, and strays up to this many differences. */
static void make_many(uint64_t count)
{
	make_pair(8192);
	for (uint64_t i = 0; i < 200; i++)
		turn(now.c + 32 + i, i + 1);
	for (uint64_t i = 200; i < count; i++)
		turn(6400 + 3 * i, 0x80);
}

static void make_256(void)
{
	make_many(256);
}

static void make_257(void)
{
	make_many(257);
}

/* ---- the run ---- */

/* One file of the pair, where there is to be one. */
static void write_file(const char *folder, const char *name, const uint8_t *bytes, uint64_t length)
{
	char path[4096];
	const int used = snprintf(path, sizeof path, "%s/%s", folder, name);
	if (used < 0 || (size_t)used >= sizeof path)
		fail("a folder's name too long");
	if (length == NONE)
		return;
	FILE *file = fopen(path, "wb");
	if (file == NULL)
		fail("a file cannot be opened");
	const size_t written = fwrite(bytes, 1, length, file);
	if (fclose(file) != 0 || written != length)
		fail("a file cannot be written");
}

/* The pair of this number. */
int main(int argc, char **argv)
{
	static void (*const make[])(void) = {
		make_whole, make_vendor_long, make_shipped_long, make_refused_long, make_no_vendor,
		make_no_shipped, make_top, make_edges, make_256, make_257,
	};
	if (argc != 3 || argv[1][0] < '0' || argv[1][0] > '9' || argv[1][1] != 0) {
		fprintf(stderr, "usage: audit_runs 0..9 FOLDER\n");
		return 2;
	}
	make[argv[1][0] - '0']();
	write_file(argv[2], "vendor.bin", image, vendor_length);
	write_file(argv[2], "shipped.bin", sheet, shipped_length);
	print_output();
	return 0;
}
