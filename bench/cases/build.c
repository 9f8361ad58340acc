/* The builder of images: numbers, the plan and its layout, and the ways to break one rule. */
#include "cases.h"

#include <inttypes.h>
#include <stdlib.h>

const char letter[5] = { '?', 'T', 'M', 'S', 'I' };
const unsigned rule[RULES] = { 1, 2, 3, 4, 5, 6, 7, 8, 9, 10, 11, 12, 22, 13, 14, 25, 26, 27 };

struct plan now;
struct spots spot;
struct cover cover;
struct module inside;
uint8_t image[SPACE];
uint8_t sheet[SPACE];
uint64_t cases;

/* ---- numbers ---- */

/* The maker stops. */
void fail(const char *what)
{
	fprintf(stderr, "cases: %s (case %" PRIu64 ")\n", what, cases);
	exit(1);
}

/* Sources: rounding up to a multiple of a unit. */
uint64_t round_up(uint64_t value, uint64_t unit)
{
	return (value + unit - 1) / unit * unit;
}

/* Sources: all numbers are little-endian. */
static void put_in(uint8_t *buffer, uint64_t at, uint64_t width, uint64_t value)
{
	if (at > SPACE || width > SPACE - at)
		fail("a number outside the buffer");
	for (uint64_t i = 0; i < width; i++)
		buffer[at + i] = (uint8_t)(value >> (8 * i));
}

/* Sources: all numbers are little-endian. */
static uint64_t get_from(const uint8_t *buffer, uint64_t at, uint64_t width)
{
	uint64_t value = 0;
	if (at > SPACE || width > SPACE - at)
		fail("a number outside the buffer");
	for (uint64_t i = 0; i < width; i++)
		value |= (uint64_t)buffer[at + i] << (8 * i);
	return value;
}

/* A number of the image. */
void put(uint64_t at, uint64_t width, uint64_t value)
{
	put_in(image, at, width, value);
}

/* A number of the image. */
uint64_t get(uint64_t at, uint64_t width)
{
	return get_from(image, at, width);
}

/* A number of the sheet or shipped file. */
void put_sheet(uint64_t at, uint64_t width, uint64_t value)
{
	put_in(sheet, at, width, value);
}

/* A number of the sheet or shipped file. */
uint64_t get_sheet(uint64_t at, uint64_t width)
{
	return get_from(sheet, at, width);
}

/* Characters of the image. */
void text(uint64_t at, const char *what)
{
	for (uint64_t i = 0; what[i] != 0; i++)
		put(at + i, 1, (uint8_t)what[i]);
}

/* ---- the builder ---- */

/* An entry word for a place; back: bits 31..28 set, a distance back from the image's end. */
uint64_t word(uint64_t place, bool back, uint64_t type)
{
	const uint64_t low = back ? (TWO24 - now.length + place) % TWO24 : place % TWO24;
	return (back ? UINT64_C(0xF0000000) : 0) | type << 24 | low;
}

/* Refusal 22: an entry word with some of its bits 30..28 turned, which makes a right one wrong. */
uint64_t reserved(uint64_t entry, uint64_t bits)
{
	return entry ^ bits << 28;
}

/* Refusals 3, 5 and 9: where f, H, FSPE, p and E come to stand. */
void lay_out(void)
{
	spot.f = round_up(now.x != 0 ? now.x + now.e : now.h, 8);
	spot.H = spot.f + 28;
	spot.g = round_up(spot.H + now.L, 4);
	spot.p = round_up(spot.g + now.guard, 4);
	spot.E = spot.p + 12 + 4 * now.n;
	spot.S = spot.E + now.more_section - (spot.f + 24);
	spot.s = 24 + spot.S + now.more_file;
}

/* The layout, the region gap bytes after E, and entries clear of everything. */
void settle(void)
{
	lay_out();
	now.c = spot.E + now.gap;
	if (now.before)
		now.c += 4 * now.n;
	for (uint64_t k = 0; k < now.n; k++) {
		const uint64_t place = now.before ? spot.E + 4 * k : now.c + now.z + now.room + 8 * k;
		now.entry[k] = word(place, k % 2 == 1, k % 3 == 1 ? 15 : 0);
	}
	lay_files();
}

/* #107: the module of the planned image: two words of four bytes, between them one of eight where the kind has such. */
static uint64_t plan_module(void)
{
	if (now.module == 0)
		return 0;
	const enum kind kind = (enum kind)(now.module - 1);
	start_module(&inside, kind);
	inside.rows = 1;
	inside.base = now.base + 0x4000;
	lay_head(&inside, 18);
	add_word(&inside, 4, inside.data);
	add_word(&inside, kind == KIND_PE32 ? 4 : 8, inside.data + 5);
	add_word(&inside, 4, inside.data + 14);
	lay_blocks(&inside);
	inside.row[0].size = inside.size - inside.data;
	return FILE_HEADER + SECTION_HEADER + inside.size;
}

/* The places of the entries that point into the image. */
static uint64_t known_places(uint64_t *place)
{
	uint64_t count = 0;
	for (uint64_t k = 0; k < now.n; k++) {
		const uint64_t low = now.entry[k] % TWO24, back = TWO24 - low;
		if (now.entry[k] >> 31 == 0 ? low + 4 <= now.length : back <= now.length)
			place[count++] = place_of(k);
	}
	return count;
}

/* #107: the files of the volume, so that headers and free end are clear of region and words; the header file may become longer. */
void lay_files(void)
{
	static uint64_t place[MOST];
	lay_out();
	cover = (struct cover){
		.from = spot.f + spot.s, .V = now.V, .c = now.c, .z = now.z, .place = place, .words = known_places(place),
		.module = plan_module(), .section = now.section, .filled = now.filled,
	};
	lay_cover(&cover);
	spot.s = cover.end - spot.f;
	spot.m = cover.M == NOWHERE ? NOWHERE : cover.M + FILE_HEADER + SECTION_HEADER;
}

/* Refusal 2: the sum of the volume's header made right again. */
void mend_volume(void)
{
	sum_volume(image, SPACE);
}

/* Refusals 2 and 3: both sums made right again. */
void mend(void)
{
	sum_file(image, spot.f);
	mend_volume();
}

/* Bytes no rule speaks of are not zero, so that a reading of a wrong byte shows. */
void put_background(void)
{
	for (uint64_t i = 0; i < SPACE; i++)
		image[i] = i % 65536 < now.fill ? (uint8_t)(i * 37 + 11) : 0;
}

/* Refusals 3, 4 and 25: the header file with its section; it has no sections to walk where more follows the first. */
static void put_file(void)
{
	const unsigned type = spot.s == FILE_HEADER + spot.S ? TYPE_FREEFORM : TYPE_RAW;
	make_file(image, spot.f, spot.s, type, NAME_HEADER_FILE);
	make_section(image, spot.f + FILE_HEADER, spot.S, HOLDS_RAW);
}

/* #107: the further files, the module's too. */
static void put_files(void)
{
	make_cover(&cover, image);
	if (spot.m == NOWHERE)
		return;
	const uint64_t size = SECTION_HEADER + inside.size;
	make_file(image, cover.M, FILE_HEADER + size, TYPE_PEIM, 7);
	make_section(image, cover.M + FILE_HEADER, size, holder_of(inside.kind));
	make_module(&inside, image + spot.m);
}

/* Refusals 5 to 8 and 10: the header. */
static void put_header(void)
{
	text(spot.H, "FSPH");
	put(spot.H + 4, 4, now.L);
	put(spot.H + 11, 1, now.header_revision);
	put(spot.H + 12, 4, now.revision);
	put(spot.H + 16, 8, now.identity);
	put(spot.H + 24, 4, now.length);
	put(spot.H + 28, 4, now.base);
	put(spot.H + 34, 2, now.component << 12 | now.low12);
	put(spot.H + 36, 4, now.c);
	put(spot.H + 40, 4, now.z);
	if (now.header_revision >= 6 && now.L >= 78)
		put(spot.H + 76, 2, now.extended);
}

/* Refusal 9: FSPE, the patch table and its entries. */
static void put_table(void)
{
	if (now.guard != 0) {
		text(spot.g, "FSPE");
		put(spot.g + 4, 4, now.guard);
	}
	text(spot.p, "FSPP");
	put(spot.p + 4, 2, now.table_length);
	put(spot.p + 6, 1, 1);
	put(spot.p + 7, 1, now.table_reserved);
	put(spot.p + 8, 4, now.n);
	for (uint64_t k = 0; k < now.n; k++)
		put(spot.p + 12 + 4 * k, 4, now.entry[k]);
}

/* Refusal 11: the two marks of the region. */
void put_marks(uint64_t c)
{
	put(c + 6, 1, '_');
	put(c + 7, 1, (uint8_t)letter[now.component]);
}

/* The volume's header, the header file, the region's marks. */
void put_parts(void)
{
	make_volume(image, now.V, now.h, now.x, now.e);
	put_file();
	put_header();
	put_marks(now.c);
	put_table();
	mend();
}

/* The planned image in the buffer. */
void build(void)
{
	lay_files();
	put_background();
	put_files();
	put_parts();
}

/* The plan all others start from. */
void start_small(void)
{
	now = (struct plan){
		.length = 8192, .V = 8192, .h = 72, .L = 72,
		.header_revision = 3, .component = 1,
		.identity = UINT64_C(0x31302D5441455254), .revision = 0x01020304,
		.base = 0xFFF80000, .n = 3, .table_length = 24, .gap = 64, .z = 64,
		.room = 64, .fill = 768, .module = 1 + KIND_TE, .filled = true,
	};
}

/* ---- small plans ---- */

/* The place entry k of the plan points to. */
uint64_t place_of(uint64_t k)
{
	const uint64_t low = now.entry[k] % TWO24;
	return now.entry[k] >> 31 == 0 ? low : now.length - (TWO24 - low);
}

/* #102: the extended number of the planned image. */
uint64_t extended_number(void)
{
	return now.header_revision >= 6 ? now.extended : 0;
}

/* #105: an empty sheet of the planned image's identity; with it a release only moves. */
void empty_sheet(uint8_t *bytes)
{
	put_in(bytes, 0, 8, now.identity);
	put_in(bytes, 8, 4, now.revision);
	put_in(bytes, 12, 2, 0);
	put_in(bytes, 14, 2, extended_number());
}

/* #102: a header revision by the fixed sequence, often 6 or more, with an L that it allows and a number. */
void draw_revision(void)
{
	static const uint64_t revision[] = { 3, 4, 5, 6, 6, 6, 7, 8, 255 };
	const size_t i = (size_t)below(COUNT(revision) + 1);
	now.header_revision = i < COUNT(revision) ? revision[i] : 6 + below(250);
	now.L = (now.header_revision < 6 ? 72 : 80) + below(17);
	now.extended = below(8) == 0 ? 0 : below(65536);
}

/* "Moving": the highest legal base. */
uint64_t highest_base(void)
{
	return (TWO32 - now.length) / 4096 * 4096;
}

/* "Moving": a legal base by the fixed sequence. */
uint64_t random_base(void)
{
	return below(highest_base() / 4096 + 1) * 4096;
}

/* #107: V after the last part that is in the volume, the words being there or not. */
static void fit_volume(bool with_words)
{
	const uint64_t n = now.n;
	now.length = now.V = SPACE;
	settle();
	now.n = with_words ? n : 0;
	lay_files();
	now.n = n;
	const struct covering *last = &cover.file[cover.files - 1];
	now.V = cover.files == 0 ? spot.f + spot.s : last->at == cover.M ? last->end : cover.free;
}

/* The layout, the image ending some bytes after its last part: with the volume, in a file that goes on to its end (components 1 and 3), or
   after the words that follow the volume. */
void fit(uint64_t tail)
{
	const uint64_t room = now.room;
	now.filled = false;
	fit_volume(now.before || now.component % 2 == 1);
	if (now.component % 2 == 1) {
		now.filled = true;
		now.V += FILE_HEADER + tail;
		now.length = now.V;
	} else {
		now.V += now.free;
		now.room = now.before ? room : now.V - now.c - now.z + room;
		now.length = now.V + (now.before ? 0 : room + 8 * now.n) + tail;
	}
	settle();
	now.room = room;
}

/* Eight small plans: FSPE and a revision of 6 or more (bit 0), an extension (bit 1), words before the region (bit 2). Each has a module. */
void small(unsigned k)
{
	static const uint64_t header_revision[SMALLS] = { 3, 6, 5, 7, 4, 255, 5, 6 };
	static const uint64_t L[SMALLS] = { 72, 80, 73, 81, 74, 82, 84, 95 };
	static const uint64_t base[SMALLS] = {
		0xFFF80000, 0x00100000, 0, 0xFFFFF000, 0x80000000, 0x7FFFF000, 0x1000, 0xFFFFE000,
	};
	static const enum kind kind[SMALLS] = { KIND_TE, KIND_PE32, KIND_TE, KIND_PE64, KIND_TE, KIND_TE, KIND_PE32, KIND_TE };
	static const uint64_t free_bytes[SMALLS] = { 0, 8, 0, 1, 0, 24, 0, 7 };
	start_small();
	now.module = 1 + kind[k];
	now.free = free_bytes[k];
	now.section = k % 3 == 0;
	now.component = k % 4 + 1;
	now.base = base[k];
	now.header_revision = header_revision[k];
	now.L = L[k];
	now.extended = 0x5AA5 - k * 0x0303;
	now.guard = k % 2 == 1 ? 23 + k : 0;
	if (k / 2 % 2 == 1)
		now.x = 72 + k, now.e = 20 + k;
	now.before = k / 4 == 1;
	now.n = 3 + k % 2;
	now.gap = 36 + k;
	now.z = 40 + 3 * k;
	now.room = 8 + k;
	now.identity += k * UINT64_C(0x0100000001000001);
	now.revision += k * 0x01000101;
	fit(12 + k);
}

/* Refusal 14: the first three words at E, at the region's and the image's ends, touching, in any order. */
void arrange(size_t i)
{
	const uint64_t end = now.c + now.z;
	const uint64_t place[ARRANGEMENTS][3] = {
		{ spot.E, now.c - 4, end }, { end, now.c - 4, spot.E },
		{ end, end + 4, end + 8 }, { end + 8, end + 4, end },
		{ end + 4, end, end + 8 }, { spot.E, spot.E + 4, spot.E + 8 },
		{ spot.E + 8, spot.E, spot.E + 4 },
		{ now.length - 4, now.length - 8, now.length - 12 },
		{ now.length - 12, now.length - 4, now.length - 8 },
		{ spot.E + 1, spot.E + 5, end + 3 }, { now.length - 5, end, spot.E },
	};
	for (uint64_t j = 0; j < 3; j++)
		now.entry[j] = word(place[i][j], (i + j) % 3 != 1, 15 * (j % 2));
}

/* A small whole plan with every part drawn from the sequence. */
void random_small(void)
{
	small((unsigned)below(SMALLS));
	now.h = 72 + 2 * below(8);
	if (now.x != 0)
		now.x = now.h + below(8), now.e = 20 + below(12);
	draw_revision();
	now.guard = below(2) == 0 ? 24 + below(8) : 0;
	now.n = below(7);
	now.more_section = below(6);
	now.more_file = below(6);
	now.component = 1 + below(4);
	now.low12 = below(4096);
	now.identity = below(UINT64_C(1) << 47) * 131071;
	now.revision = below(TWO32);
	now.gap = below(60);
	now.z = 32 + below(80);
	now.room = below(12);
	fit(below(40));
	now.base = random_base();
}

/* ---- one rule broken ---- */

/* One way to break each rule from 2 on; refusal 1 is a matter of the shown length. */
void break_rule(unsigned number)
{
	switch (number) {
	case 2: put(40, 1, 'x'); break;
	case 3: put(spot.f + 5, 1, 0x23); break;
	case 4: put(spot.f + 27, 1, 0x1B); break;
	case 5: put(spot.H + 3, 1, 'h'); break;
	case 6: put(spot.H + 24, 4, now.length + 1); break;
	case 7: put(spot.H + 35, 1, 0x50); break;
	case 8: put(spot.H + 29, 1, 0x08); break;
	case 9: put(spot.p + 6, 1, 2); break;
	case 10: put(spot.H + 40, 4, 31); break;
	case 11: put(now.c + 6, 1, '-'); break;
	case 12: put(spot.p + 12 + 4, 4, 0x02000000); break;
	case 13: put(spot.p + 12, 4, 0xFFFFFFFE); break;
	case 14: put(spot.p + 12 + 8, 4, word(now.c + 1, false, 0)); break;
	case 22: put(spot.p + 12 + 8, 4, reserved(get(spot.p + 12 + 8, 4), 2)); break;
	case 25: put(spot.m + 1, 1, 'z'); break;
	case 26: put(spot.m + inside.blocks + 10, 2, get(spot.m + inside.blocks + 8, 2)); break;
	case 27: put(spot.m + inside.blocks + 13, 1, 0x50); break;
	default: break;
	}
}

/* Refusals 12 to 14 and 22: the index of the entry break_rule puts at fault. */
uint64_t broken_index(unsigned number)
{
	return number == 12 ? 1 : number == 14 || number == 22 ? 2 : 0;
}

/* The planned image with one rule broken, the sums made right again; gives the length to lend. */
uint64_t build_broken(unsigned number)
{
	build();
	break_rule(number);
	mend();
	return number == 1 ? 71 : now.length;
}
