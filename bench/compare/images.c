/* The builder of images, written for this folder alone. */
#include "images.h"

#include <string.h>

#include "fields.h"
#include "../make/files.h"

/* The sequence from a start that is near others: its first numbers, still alike, are passed. */
void numbers_from(uint64_t start)
{
	seed(start * UINT64_C(0x9E3779B97F4A7C15) ^ UINT64_C(0xD1B54A32D192ED03));
	for (int i = 0; i < 4; i++)
		(void)any_number();
}

/* Bytes of the sequence; what is longer than 4 KiB repeats them. */
void fill_bytes(uint8_t *at, uint64_t length)
{
	const uint64_t first = length < 4096 ? length : 4096;
	for (uint64_t i = 0; i < first; i += 8) {
		const uint64_t number = any_number();
		memcpy(at + i, &number, first - i < 8 ? first - i : 8);
	}
	for (uint64_t done = first; done < length;) {
		const uint64_t more = length - done < done ? length - done : done;
		memcpy(at + done, at, more);
		done += more;
	}
}

/* The plan all others start from. */
void plan_plain(struct plan *plan)
{
	memset(plan, 0, sizeof *plan);
	plan->h = 72;
	plan->L = 80;
	plan->header_revision = 6;
	plan->extended = 0x0102;
	plan->component = 1;
	plan->identity = UINT64_C(0x31302D5441455254);
	plan->revision = 0x01020304;
	plan->z = 64;
	plan->ends = ENDS_WITH_IMAGE;
	plan->cover.filled = true;
}

/* How many entries a drawn plan has: few, and sometimes up to the most. */
static uint64_t drawn_count(void)
{
	const uint64_t kind = below(64);
	return kind == 0 ? MOST_ENTRIES - below(3) : kind < 4 ? below(200) : below(8);
}

/* The size of the region: mostly small, and at both edges. */
static uint64_t drawn_size(void)
{
	const uint64_t kind = below(32);
	if (kind == 0)
		return 65536 - below(2) * below(3);
	if (kind < 4)
		return 280 + below(1200);
	return 32 + below(kind < 6 ? 3 : 300);
}

/* A header revision about 3 and 6, mostly with an L that it allows, and a number for H+76. */
static void draw_revision(struct plan *plan)
{
	static const uint64_t revision[] = { 3, 4, 5, 6, 7, 8, 255, 6 };
	plan->header_revision = revision[below(8)];
	plan->L = below(8) == 0 ? 249 + below(8) : 72 + below(25);
	if (plan->header_revision >= 6 && plan->L < 80 && below(8) != 0)
		plan->L += 8;
	plan->extended = below(8) == 0 ? 0 : below(65536);
}

/* A plan with every part drawn. */
void plan_drawn(struct plan *plan)
{
	plan_plain(plan);
	plan->h = 72 + 2 * below(8);
	if (below(2) == 0) {
		plan->x = plan->h + below(9);
		plan->e = 20 + below(12);
	}
	draw_revision(plan);
	plan->guard = below(16) == 0 ? 22 + below(3) : below(2) * (24 + below(9));
	plan->more_section = below(6);
	plan->more_file = below(6);
	plan->component = 1 + below(4);
	plan->low12 = below(4096);
	plan->identity = any_number();
	plan->revision = below(TWO32);
	plan->n = drawn_count();
	plan->before = below(plan->n + 1);
	plan->gap = below(3) == 0 ? 0 : below(64);
	plan->z = drawn_size();
	const uint64_t ends = below(8);
	plan->ends = ends == 0 ? ENDS_WITH_HEADER_FILE : ends == 1 ? ENDS_ANYWHERE : ENDS_WITH_IMAGE;
	plan->cover.section = below(3) == 0;
	plan->cover.filled = below(2) == 0;
	if (below(3) != 0)
		draw_inside(&plan->inside);
}

/* Rounding up to a multiple. */
static uint64_t round_up(uint64_t value, uint64_t unit)
{
	return (value + unit - 1) / unit * unit;
}

/* Where the tables come to stand. */
static void lay_tables(struct plan *plan)
{
	plan->f = round_up(plan->x != 0 ? plan->x + plan->e : plan->h, 8);
	plan->H = plan->f + 28;
	plan->g = round_up(plan->H + plan->L, 4);
	plan->p = round_up(plan->g + plan->guard, 4);
	plan->E = plan->p + 12 + 4 * plan->n;
	plan->S = plan->E + plan->more_section - (plan->f + 24);
	plan->s = 24 + plan->S + plan->more_file;
}

/* The words before the region, the region, the words after it; gives the end of the last part. */
static uint64_t lay_words(struct plan *plan, uint64_t spread)
{
	uint64_t at = plan->E;
	for (uint64_t k = 0; k < plan->n; k++) {
		if (k == plan->before) {
			plan->c = at + plan->gap;
			at = plan->c + plan->z;
		}
		at += k == 0 || spread == 0 ? 0 : below(spread);
		plan->place[k] = at;
		at += 4;
	}
	if (plan->before >= plan->n) {
		plan->c = at + plan->gap;
		at = plan->c + plan->z;
	}
	return at;
}

/* The places in any order, as entries of both kinds. */
static void lay_entries(struct plan *plan)
{
	for (uint64_t k = plan->n; k > 1; k--) {
		const uint64_t other = below(k), kept = plan->place[other];
		plan->place[other] = plan->place[k - 1];
		plan->place[k - 1] = kept;
	}
	for (uint64_t k = 0; k < plan->n; k++) {
		const uint64_t type = below(2) * 15 << 24;
		const uint64_t back = TWO24 - plan->length + plan->place[k];
		plan->entry[k] = (uint32_t)(type | (below(2) == 0 ? plan->place[k]
						    : UINT64_C(0xF0000000) | back));
	}
}

/* #107: the files after the header file, which may become longer; region and words are clear of their headers and the free end. */
static void lay_files(struct plan *plan)
{
	struct cover *cover = &plan->cover;
	cover->from = plan->f + plan->s;
	cover->V = plan->V;
	cover->c = plan->c;
	cover->z = plan->z;
	cover->words = plan->n;
	cover->place = plan->place;
	cover->module = plan->inside.size;
	lay_cover(cover);
	plan->s = cover->end - plan->f;
}

/* The layout; the words are spread where the image is long. */
void lay_out(struct plan *plan, uint64_t at_least)
{
	lay_tables(plan);
	uint64_t end = lay_words(plan, 0);
	const uint64_t more = plan->inside.size == 0 ? 0 : plan->inside.size + 64 + below(64);
	if (at_least < end + more)
		at_least = end + more;
	if (at_least - more > end && plan->n != 0)
		end = lay_words(plan, (at_least - more - end) / plan->n + 1);
	plan->length = end > at_least ? end : at_least;
	plan->end = end;
	const uint64_t least = plan->f + plan->s;
	plan->V = plan->ends == ENDS_WITH_HEADER_FILE || plan->length < least ? least : plan->length;
	if (plan->ends == ENDS_ANYWHERE && plan->length > least)
		plan->V = least + below(plan->length - least);
	if (plan->V > plan->length)
		plan->length = plan->V;
	lay_files(plan);
	lay_entries(plan);
}

/* #102: what a sheet for the planned image carries. */
uint64_t extended_number(const struct plan *plan)
{
	return plan->header_revision >= 6 ? plan->extended : 0;
}

/* #105: with it a release only moves. */
void empty_sheet(uint8_t *sheet, uint64_t identity, uint64_t revision, uint64_t extended)
{
	put_number(sheet, 0, 8, identity);
	put_number(sheet, 8, 4, revision);
	put_number(sheet, 12, 2, 0);
	put_number(sheet, 14, 2, extended);
}

/* A legal base: any, the lowest or the highest. */
uint64_t drawn_base(uint64_t length)
{
	const uint64_t highest = (TWO32 - (length > TWO24 ? TWO24 : length)) / 4096;
	const uint64_t kind = below(8);
	return 4096 * (kind == 0 ? 0 : kind == 1 ? highest : below(highest + 1));
}

/* The volume, the files and the sections; more than one section in the header file would have to be walked. */
static void put_volume(const struct plan *plan, uint8_t *image)
{
	const unsigned type = plan->s == FILE_HEADER + plan->S ? TYPE_FREEFORM : TYPE_RAW;
	make_cover(&plan->cover, image);
	if (plan->cover.M != NOWHERE)
		put_inside(&plan->inside, image, plan->cover.M);
	make_volume(image, plan->V, plan->h, plan->x, plan->e);
	make_file(image, plan->f, plan->s, type, NAME_HEADER_FILE);
	make_section(image, plan->f + FILE_HEADER, plan->S, HOLDS_RAW);
}

/* The FSP header. */
static void put_header(const struct plan *plan, uint8_t *image)
{
	memcpy(image + plan->H, "FSPH", 4);
	put_number(image, plan->H + 4, 4, plan->L);
	put_number(image, plan->H + 11, 1, plan->header_revision);
	put_number(image, plan->H + 12, 4, plan->revision);
	put_number(image, plan->H + 16, 8, plan->identity);
	put_number(image, plan->H + 24, 4, plan->length);
	put_number(image, plan->H + 28, 4, plan->base);
	put_number(image, plan->H + 34, 2, plan->component << 12 | plan->low12);
	put_number(image, plan->H + 36, 4, plan->c);
	put_number(image, plan->H + 40, 4, plan->z);
	if (plan->L >= 78)
		put_number(image, plan->H + 76, 2, plan->extended);
}

/* FSPE, the patch table and its entries. */
static void put_table(const struct plan *plan, uint8_t *image)
{
	if (plan->guard != 0) {
		memcpy(image + plan->g, "FSPE", 4);
		put_number(image, plan->g + 4, 4, plan->guard);
	}
	memcpy(image + plan->p, "FSPP", 4);
	image[plan->p + 6] = 1;
	put_number(image, plan->p + 8, 4, plan->n);
	for (uint64_t k = 0; k < plan->n; k++)
		put_number(image, plan->p + 12 + 4 * k, 4, plan->entry[k]);
}

/* The sums of the files' headers, then that of the volume's, as far as the bytes are there. */
void mend(const struct plan *plan, uint8_t *image, uint64_t length)
{
	if (length < 72 || plan->f + FILE_HEADER > length)
		return;
	sum_file(image, plan->f);
	for (unsigned i = 0; i < plan->cover.files; i++)
		if (plan->cover.file[i].at + FILE_HEADER <= length)
			sum_file(image, plan->cover.file[i].at);
	sum_volume(image, length);
}

/* The planned image; bytes no rule speaks of stay. */
void build(const struct plan *plan, uint8_t *image)
{
	put_volume(plan, image);
	put_header(plan, image);
	put_table(plan, image);
	image[plan->c + 6] = '_';
	image[plan->c + 7] = (uint8_t)"?TMSI"[plan->component];
	mend(plan, image, plan->length);
}
