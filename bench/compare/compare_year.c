/* Years of releases of one image each, by the linked library, and what the second reader says of them without playing any call on the image
   (#113): every answer, the last image, and the audit of it against the first with its list. The bytes around every lent buffer too. */
#include "fields.h"

#include <inttypes.h>
#include <stdbool.h>
#include <stdio.h>
#include <stdlib.h>
#include <string.h>

#include "drawing.h"
#include "lent.h"
#include "../second/sheet.h"
#include "../second/year.h"

#define YEAR 200
#define MOST_LENGTH ((uint64_t)65536)
#define SHEET_ROOM ((size_t)131072)
#define LIST_ROOM ((size_t)524288)

/* A run of so many years must have had every kind of call and of year. */
#define LONG 40

uint8_t *model[PARTS];
size_t length[PARTS];
uint32_t *list;
struct plan plan;

static struct second_order order[YEAR];
static struct second_released wanted[YEAR];
static uint8_t *vendor, *last, *places;
static struct lent lent_image, lent_vendor, lent_sheet, lent_owners, lent_places, lent_answer;
static uint64_t seen[101], told[101], moved, changed, undone, quiet;

static void differ(const char *what)
{
	printf("different: %s, %s", what, whereabouts);
	exit(1);
}

/* ---- a year is drawn ---- */

/* An image of edition 2 that reads, short enough for so many calls. */
static void draw_vendor(void)
{
	struct second_reading r;
	do {
		draw_image();
		r = second_read(model[IMAGE], length[IMAGE]);
	} while (length[IMAGE] > MOST_LENGTH || r.number != 0 || r.component == 0);
	memcpy(vendor, model[IMAGE], length[IMAGE]);
}

/* The sheet of an earlier call again, or with the vendor's own bytes in its bodies. */
static void draw_again(const struct second_order *earlier, bool back)
{
	const uint64_t c = second_read(vendor, length[IMAGE]).c;
	struct sheet s = { .bytes = model[OTHER], .length = earlier->sheet_length };
	length[OTHER] = (size_t)earlier->sheet_length;
	memcpy(model[OTHER], earlier->sheet, length[OTHER]);
	if (!back || second_sheet_refused(&s))
		return;
	for (uint64_t i = 0; i < s.m; i++) {
		const struct field field = second_sheet_field(&s, i);
		if (c + field.offset + field.length <= length[IMAGE])
			memcpy(model[OTHER] + field.body, vendor + c + field.offset, (size_t)field.length);
	}
}

/* A base: mostly legal, now and then the vendor's own, one that is not legal, or any number. */
static uint64_t draw_base(void)
{
	const uint64_t legal = drawn_base(plan.length);
	switch (below(12)) {
	case 0: return plan.base;
	case 1: return legal + (UINT64_C(1) << below(12));
	case 2: return legal + TWO32 * (1 + below(3));
	case 3: return any_number();
	default: return legal;
	}
}

/* Bytes of its own for a call. */
static uint8_t *kept(const uint8_t *bytes, size_t count)
{
	uint8_t *own = memory(malloc(count + 1));
	memcpy(own, bytes, count);
	return own;
}

static void draw_order(unsigned at)
{
	const uint64_t kind = below(8);
	if (at != 0 && kind < 3)
		draw_again(&order[below(at)], kind != 0);
	else
		draw_sheet();
	const uint64_t owner = draw_owners();
	order[at] = (struct second_order){ .sheet = kept(model[OTHER], length[OTHER]), .sheet_length = length[OTHER],
					   .new_base = draw_base(),
					   .owners = kept(model[OWNERS], length[OWNERS]), .owners_length = length[OWNERS],
					   .owner = owner };
}

/* Every setting as the vendor had it, in one entry, by the owner of all; false where no sheet is long enough for that. */
static bool draw_all_back(struct second_order *o)
{
	const uint64_t size = plan.z - 32;
	if (size == 0 || size > 65535 - 24)
		return false;
	empty_sheet(model[OTHER], plan.identity, plan.revision, extended_number(&plan));
	put_number(model[OTHER], 12, 2, 1);
	put_number(model[OTHER], 16, 8, 32 | size << 32 | UINT64_C(24) << 48);
	memcpy(model[OTHER] + 24, vendor + plan.c + 32, (size_t)size);
	put_number(model[OWNERS], 0, 8, 32 | size << 32 | UINT64_C(1) << 48);
	*o = (struct second_order){ .sheet = kept(model[OTHER], (size_t)(24 + size)), .sheet_length = 24 + size,
				    .new_base = drawn_base(plan.length),
				    .owners = kept(model[OWNERS], 8), .owners_length = 8, .owner = 1 };
	return true;
}

/* All calls of a year; in some years the last one sets everything back, in some no base is legal. */
static void draw_year(void)
{
	const uint64_t kind = below(8);
	for (unsigned i = 0; i < YEAR; i++) {
		if (kind == 0 && i == YEAR - 1 && draw_all_back(&order[i]))
			continue;
		draw_order(i);
		if (kind == 1)
			order[i].new_base |= 1 + below(4095);
	}
}

/* ---- and played ---- */

/* The answer of a call, of so many fields; the buffer is as long as it must be. */
static void lend_answer(size_t fields)
{
	static const uint8_t filled[8 * 8];
	lend(&lent_answer, filled, 8 * fields);
}

static void same_answer(uint32_t number, const uint64_t *fields, size_t count)
{
	uint8_t answered[8 * 8];
	put_fields(answered, fields, count);
	if (number != fields[0]) {
		printf("returned %" PRIu32 ", not %" PRIu64 "\n", number, fields[0]);
		differ("the number");
	}
	if (!same_lent(&lent_answer, "answer", answered))
		differ("the answer");
}

/* One call on the lent image, which stays lent. */
static void play(const struct second_order *o, const struct second_released *answer)
{
	const uint64_t fields[] = { answer->number, answer->index, (uint64_t)answer->move };
	lend(&lent_sheet, o->sheet, (size_t)o->sheet_length);
	lend(&lent_owners, o->owners, (size_t)o->owners_length);
	lend_answer(3);
	same_answer(pajurenda_release(lent_image.at, lent_image.length, lent_sheet.at, lent_sheet.length, o->new_base,
				      lent_owners.at, lent_owners.length, o->owner, lent_answer.at, lent_answer.length),
		    fields, 3);
	if (!same_lent(&lent_sheet, "sheet", o->sheet) || !same_lent(&lent_owners, "owners", o->owners))
		differ("what a release must not write");
	seen[answer->number]++;
}

/* The audit of what is left against the vendor image, with room for so many entries and some bytes more. */
static void audit(const struct second_audited *a, size_t room)
{
	const uint64_t fields[] = { a->number, a->index, a->base, a->settings, a->strays, a->bits, a->explained };
	fill_bytes(places, room);
	lend(&lent_vendor, vendor, length[IMAGE]);
	lend(&lent_places, places, room);
	lend_answer(7);
	same_answer(pajurenda_audit(lent_vendor.at, lent_vendor.length, lent_image.at, lent_image.length,
				    lent_places.at, lent_places.length, lent_answer.at, lent_answer.length),
		    fields, 7);
	for (size_t i = 0; a->number == 0 && i < a->settings; i++)
		put_number(places, 4 * i, 4, list[i]);
	if (!same_lent(&lent_places, "list", places) || !same_lent(&lent_vendor, "vendor", vendor) ||
	    !same_lent(&lent_image, "image", last))
		differ("the audit's list, or what an audit must not write");
	told[a->number]++;
}

/* Room for the list: plenty, none, or about as much as there are differences. */
static size_t drawn_room(uint64_t differences)
{
	const uint64_t kind = below(4);
	return kind == 0 ? (size_t)(4 * differences + below(8)) : kind == 1 && differences != 0 ? (size_t)(4 * below(differences)) :
		(size_t)(4 * (differences + below(40)) + below(4));
}

/* Which years came: some moved, some changed settings, some set a byte and set it back, some had no call that was accepted. */
static void count_year(const struct second_audited *a)
{
	uint64_t accepted = 0, sheets = 0;
	for (unsigned i = 0; i < YEAR; i++) {
		accepted += wanted[i].number == 0 ? 1 : 0;
		sheets += wanted[i].number == 0 && order[i].sheet_length > 16 ? 1 : 0;
	}
	moved += a->base != second_read(vendor, length[IMAGE]).base ? 1 : 0;
	changed += a->settings != 0 ? 1 : 0;
	undone += sheets != 0 && a->settings == 0 ? 1 : 0;
	quiet += accepted == 0 ? 1 : 0;
}

static void year(void)
{
	const struct second_wanted fill = { .answers = wanted, .image = last };
	draw_vendor();
	draw_year();
	const uint64_t count = second_year(vendor, length[IMAGE], order, YEAR, &fill, list, LIST_ROOM / 4).settings;
	const size_t room = drawn_room(count);
	const struct second_audited a = second_year(vendor, length[IMAGE], order, YEAR, &fill, list, room / 4);
	lend(&lent_image, vendor, length[IMAGE]);
	for (unsigned i = 0; i < YEAR; i++)
		play(&order[i], &wanted[i]);
	if (!same_lent(&lent_image, "image", last))
		differ("the image after the last call");
	audit(&a, room);
	count_year(&a);
	for (unsigned i = 0; i < YEAR; i++)
		free((void *)(uintptr_t)order[i].sheet), free((void *)(uintptr_t)order[i].owners);
}

/* ---- the run ---- */

static void open_all(void)
{
	static const size_t room[PARTS] = { IMAGE_ROOM, IMAGE_ROOM, OWNERS_ROOM, 64, 64 };
	for (int part = 0; part < PARTS; part++)
		model[part] = memory(malloc(room[part]));
	vendor = memory(malloc(IMAGE_ROOM));
	last = memory(malloc(IMAGE_ROOM));
	places = memory(malloc(LIST_ROOM));
	list = memory(malloc(LIST_ROOM));
	open_lent(&lent_image, SHEET_ROOM);
	open_lent(&lent_vendor, SHEET_ROOM);
	open_lent(&lent_sheet, SHEET_ROOM);
	open_lent(&lent_owners, OWNERS_ROOM);
	open_lent(&lent_places, LIST_ROOM);
	open_lent(&lent_answer, 4096);
}

int main(int count, char **words)
{
	static const unsigned must[] = { 0, 15, 16, 17, 18, 23, 24 };
	if (count != 3) {
		fputs("usage: compare_year SEED YEARS\n", stderr);
		return 2;
	}
	const uint64_t start = number_of(words[1]), years = number_of(words[2]);
	open_all();
	watch_faults();
	for (uint64_t i = 0; i < years; i++) {
		snprintf(whereabouts, sizeof whereabouts, "seed %" PRIu64 " year %" PRIu64 "\n", start, i);
		numbers_from(start * UINT64_C(0x2545F4914F6CDD1D) + i);
		year();
	}
	show_seen("release", seen);
	show_seen("audit", told);
	for (size_t i = 0; years >= LONG && i < sizeof must / sizeof must[0]; i++)
		if (seen[must[i]] == 0)
			differ("a number that never came");
	if (years >= LONG && (moved == 0 || changed == 0 || undone == 0 || quiet == 0 || told[0] == 0 || told[20] == 0))
		differ("a kind of year that never came");
	printf("years of %d releases: %" PRIu64 ", moved %" PRIu64 ", with settings changed %" PRIu64 ", all set back %" PRIu64
	       ", none accepted %" PRIu64 "; none different\n",
	       YEAR, years, moved, changed, undone, quiet);
	return 0;
}
