/* Audits of images with modules: moved, with strays in and beside their words, settings among them, and words moved wrongly. */
#include "audit_cases.h"
#include "module_cases.h"

#include <string.h>

/* A volume as the vendor's, its words listed, and its move. */
static void ship_several(unsigned k, uint64_t base)
{
	several(k);
	list_words();
	ship_built(base);
}

/* "The audit": moved to many bases and nothing else. */
static void audit_moved(unsigned k)
{
	several(k);
	const uint64_t base[] = { now.base, 0, highest_base(), 0x1000, random_base() };
	for (size_t i = 0; i < COUNT(base); i++) {
		ship_several(k, base[i]);
		audit(i % 2, 0);
	}
}

/* "The audit": a stray in the first and in the last byte of each word, and beside it, with a setting after or before. */
static void audit_in_words(unsigned k)
{
	several(k);
	list_words();
	for (uint64_t i = 1; i < shown; i++) {
		const uint64_t place = shown_place[i], end = place + shown_width[i];
		ship_several(k, random_base());
		turn_byte(place, 0x01);
		audit_exact();
		turn_byte(end - 1, 0x80);
		turn_byte(now.c + 32 + i % (now.z - 32), 0x18);
		audit_exact();
		turn_byte(place - 1, 0xFF);
		if (end < now.length)
			turn_byte(end, 0x40);
		audit(turned() - 1, 20);
		audit(turned() + 1, 0);
	}
}

/* "The audit": one word left where it was, or moved twice; all of a module's left; the base word alone moved. */
static void audit_left(unsigned k)
{
	several(k);
	list_words();
	for (uint64_t i = 1; i < shown; i++) {
		const uint64_t base = random_base();
		ship_several(k, base);
		memcpy(sheet + shown_place[i], image + shown_place[i], shown_width[i]);
		audit_counting(8);
		ship_several(k, base);
		put_sheet(shown_place[i], shown_width[i], get_sheet(shown_place[i], shown_width[i]) + base - now.base);
		audit_counting(9);
	}
	ship_several(k, random_base());
	for (uint64_t i = 1; i < shown; i++)
		memcpy(sheet + shown_place[i], image + shown_place[i], shown_width[i]);
	audit_counting(8 * shown);
	memcpy(sheet, image, now.length);
	put_sheet(spot.H + 28, 4, random_base());
	audit_counting(8 * shown);
}

/* "The audit": 64-bit words moved in their low half alone, as if they were 32-bit ones. */
static void audit_halves(unsigned k)
{
	for (uint64_t turn = 0; turn < 6; turn++) {
		const uint64_t from = turn % 2 == 0 ? 0x00100000 : 0xFFF00000, to = turn % 2 == 0 ? 0xFFF00000 : 0x00100000;
		several(k);
		list_words();
		now.base = from;
		put(spot.H + 28, 4, from);
		for (uint64_t i = 1; i < shown; i++)
			put(shown_place[i], shown_width[i], odd_value(shown_width[i], 5 * turn + i, from, to));
		ship_built(to);
		audit(0, 0);
		for (uint64_t i = 1; i < shown; i++)
			if (shown_width[i] == 8)
				memcpy(sheet + shown_place[i] + 4, image + shown_place[i] + 4, 4);
		audit_counting(4 * shown);
	}
}

/* "The audit": the vendor's modules decide, whatever the shipped file says in their places. */
static void audit_other_heads(unsigned k)
{
	for (unsigned i = 0; i < 4; i++) {
		ship_several(k, random_base());
		const struct module *m = &inner[i % inner_count].m;
		const uint64_t at = inner[i % inner_count].at;
		const uint64_t turned_at[] = { at, at + m->table + 16, at - 1, at - 4 };
		turn_byte(turned_at[i], 0x06);
		turn_byte(now.c + 33, 0x01);
		if (m->blocks_size != 0) {
			turn_byte(at + m->blocks + 4, 0x0C);
			turn_byte(at + m->blocks + 9, 0x70);
		}
		audit_exact();
	}
}

/* "The audit": many differences by the fixed sequence. */
static void audit_drawn(unsigned count)
{
	for (unsigned i = 0; i < count; i++) {
		ship_several(i % SEVERALS, random_base());
		for (uint64_t at = below(40); at < now.length; at += 1 + below(i % 2 == 0 ? 9 : 120))
			if (at < spot.H + 28 || at >= spot.H + 32)
				turn_byte(at, below(255) + 1);
		audit(turned() - (i % 4 == 0 ? 1 : 0), i % 4 == 0 ? 20 : 0);
	}
}

/* The audits of #107. */
void audit_modules(void)
{
	begin_part(UINT64_C(0x510E527FADE682D1), false);
	for (unsigned k = 0; k < SEVERALS; k++) {
		audit_moved(k);
		audit_in_words(k);
		audit_left(k);
		audit_halves(k);
		audit_other_heads(k);
	}
	audit_drawn(24);
}
