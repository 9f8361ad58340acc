/* The maker of four pairs vendor.bin, shipped.bin; the output each is to give goes to standard output.
   cc -std=c11 ../second/second.c build.c audit_sample.c -o audit_sample
   audit_sample SAMPLE [EXPLAINED [REFUSED [MANY]]]: the folders of the pairs; they must exist. */
#include "cases.h"
#include "pair_vendor.h"
#include "../second/second.h"

#include <inttypes.h>
#include <stdarg.h>
#include <string.h>

#define PLACES 256

/* "The audit": the whole output document 01 shows. */
static const char sample_output[] =
	"base 00100000\nsettings 1\nstrays 1\nbits 1\nS 4136\nX 5000\nverdict unexplained\n";

static char output[8192];
static size_t output_length;

/* A piece of the output. */
static void say(const char *format, ...)
{
	const size_t room = sizeof output - output_length;
	va_list values;
	va_start(values, format);
	const int more = vsnprintf(output + output_length, room, format, values);
	va_end(values);
	if (more < 0 || (size_t)more >= room)
		fail("an output too long");
	output_length += (size_t)more;
}

/* "The audit": the program's whole output for the pair. */
static void print_audit(void)
{
	uint32_t place[PLACES];
	const struct second_audited a = second_audit(image, now.length, sheet, now.length, place, PLACES);
	output_length = 0;
	if (a.number != 0) {
		say("refused %" PRIu64 "\n", a.number);
	} else {
		say("base %08" PRIX64 "\nsettings %" PRIu64 "\nstrays %" PRIu64 "\nbits %" PRIu64 "\n",
		    a.base, a.settings, a.strays, a.bits);
		for (uint64_t i = 0; i < a.settings + a.strays; i++)
			say("%c %" PRIu64 "\n", place[i] < TWO24 ? 'S' : 'X', place[i] % TWO24);
		say("verdict %s\n", a.explained != 0 ? "explained" : "unexplained");
	}
	printf("%s", output);
}

/* One file of the pair, as long as the image. */
static void write_file(const char *folder, const char *name, const uint8_t *bytes)
{
	char path[4096];
	const int length = snprintf(path, sizeof path, "%s/%s", folder, name);
	if (length < 0 || (size_t)length >= sizeof path)
		fail("a folder's name too long");
	FILE *file = fopen(path, "wb");
	if (file == NULL)
		fail("a file cannot be opened");
	const size_t written = fwrite(bytes, 1, now.length, file);
	if (fclose(file) != 0 || written != now.length)
		fail("a file cannot be written");
}

/* The vendor's image: 8,192 bytes, the region in a file of its own; no module. */
static void build_sample(void)
{
	start_small();
	now.module = 0;
	build_vendor();
	put(4136, 2, 0x0501);
}

/* #105: the shipped file is the vendor's image released with a sheet. */
static void ship_with(uint64_t base, const uint8_t *release, uint64_t length)
{
	memcpy(sheet, image, now.length);
	if (second_release(sheet, now.length, release, length, base, owners, own_all(), 1).number != 0)
		fail("the vendor's image can't be released");
}

/* "Moving": the shipped file is the vendor's image moved. */
static void ship(uint64_t base)
{
	uint8_t empty[EMPTY_SHEET];
	empty_sheet(empty);
	ship_with(base, empty, EMPTY_SHEET);
}

/* The sample: one setting, and a word at 4,998 that was not moved, which shows in its byte at 5,000. */
static void make_sample(void)
{
	build_sample();
	ship(0x00100000);
	memcpy(sheet + 4998, image + 4998, 4);
	put_sheet(4136, 1, 0);
}

/* Moved, and set by the sample table's sheet with a second field ending at z. */
static void make_explained(void)
{
	static const uint8_t release[] = {
		0x54, 0x52, 0x45, 0x41, 0x54, 0x2D, 0x30, 0x31, 0x04, 0x03, 0x02, 0x01, 0x02, 0x00, 0x00, 0x00,
		0x28, 0x00, 0x00, 0x00, 0x02, 0x00, 0x20, 0x00, 0x8D, 0x01, 0x00, 0x00, 0x03, 0x00, 0x22, 0x00,
		0x01, 0x00, 0xA1, 0xB2, 0xC3,
	};
	build_sample();
	ship_with(0x00345000, release, sizeof release);
}

/* Refusal 14 at index 2: the third word shares a byte with the first; both files are the same. */
static void make_refused(void)
{
	build_sample();
	put(spot.p + 12 + 4 * 2, 4, word(4501, true, 15));
	memcpy(sheet, image, now.length);
	const struct second_reading r = second_read(image, now.length);
	if (r.number != 14 || r.index != 2)
		fail("not refusal 14 at index 2");
}

/* Refusal 20: 250 settings and 50 strays. */
static void make_many(void)
{
	build_sample();
	ship(0xFFF00000);
	for (uint64_t i = 0; i < 250; i++)
		put_sheet(now.c + 32 + i, 1, get_sheet(now.c + 32 + i, 1) ^ (i + 1));
	for (uint64_t i = 0; i < 50; i++)
		put_sheet(7000 + 3 * i, 1, get_sheet(7000 + 3 * i, 1) ^ 0x80);
}

/* Each pair into the folder named by its argument; the first is checked against document 01. */
int main(int argc, char **argv)
{
	static void (*const make[])(void) = { make_sample, make_explained, make_refused, make_many };
	if (argc < 2 || argc > 5) {
		fprintf(stderr, "usage: audit_sample SAMPLE [EXPLAINED [REFUSED [MANY]]]\n");
		return 2;
	}
	for (int i = 0; i + 1 < argc; i++) {
		make[i]();
		write_file(argv[i + 1], "vendor.bin", image);
		write_file(argv[i + 1], "shipped.bin", sheet);
		print_audit();
		if (i == 0 && strcmp(output, sample_output) != 0)
			fail("not the output document 01 shows");
	}
	return 0;
}
