/* Mend cases that are refused: the vendor's own numbers, 28 before 19, 18 and 20; file and list stay as they were. */
#include "audit_cases.h"
#include "edition_cases.h"

#include <string.h>

/* A refused mending of so many bytes of both files. */
static void refused(uint64_t len, uint64_t other, uint64_t list, uint64_t number, uint64_t index)
{
	show_mend(&(struct mending){ .len = len, .other = other, .list = list, .number = number, .index = index });
}

/* Refusal 18: the word at the vendor's H+28 in the shipped file isn't legal, before 20. */
void mend_illegal(unsigned k)
{
	small(k);
	for (uint64_t bit = 0; bit < 12; bit += 3) {
		ship(random_base());
		turn_byte(3, 0x40);
		put_sheet(spot.H + 28, 2, get_sheet(spot.H + 28, 2) ^ UINT64_C(1) << bit);
		refused(now.length, now.length, bit % 2, 18, 0);
	}
	now.length = 4097;
	now.V = spot.f + spot.s;
	now.base = 0;
	settle();
	ship(0xFFFFE000);
	turn_byte(now.length - 1, 0x10);
	put_back(1, 0);
	put_sheet(spot.H + 28, 4, 0xFFFFF000);
	refused(now.length, now.length, 3, 18, 0);
}

/* Refusal 19: lengths that differ, before 18 and 20. */
void mend_pair(unsigned k)
{
	small(k);
	const uint64_t other[] = { 0, 1, 71, spot.H + 31, now.length - 1, now.length + 1, 4096 };
	ship(random_base());
	turn_byte(0, 0x11);
	for (size_t i = 0; i < COUNT(other); i++)
		refused(now.length, other[i], i % 2, 19, 0);
	put_sheet(spot.H + 28, 1, 1);
	refused(now.length, now.length + 1, 0, 19, 0);
	refused(now.length, now.length, 0, 18, 0);
}

/* The refusals of the vendor's image, alone and before 18, 19 and 20. */
void mend_refused(unsigned k)
{
	small(2 * k + 1);
	for (size_t i = 0; i < RULES; i++) {
		ship(random_base());
		turn_byte(0, 0x77);
		const uint64_t len = build_broken(rule[i]);
		if (k == 2)
			put_sheet(spot.H + 28, 1, 0xFF);
		refused(len, len + k % 2, i % 2, rule[i], broken_index(rule[i]));
	}
}

/* One vendor image of edition 1: equal and other files, an illegal base, another length, no list. */
static void mend_older(uint64_t length)
{
	memcpy(sheet, image, SPACE);
	refused(length, length, 0, 28, 0);
	put_sheet(0, 1, get_sheet(0, 1) ^ 0x21);
	put_sheet(length - 1, 1, get_sheet(length - 1, 1) ^ 0x42);
	refused(length, length, 2, 28, 0);
	refused(length, length, 0, 28, 0);
	show_mend_bytes(&(struct mending){ .len = length, .other = length, .list = 8, .number = 28 });
	put_sheet(spot.H + 28, 1, 1);
	refused(length, length, 2, 28, 0);
	refused(length, length - 1, 0, 28, 0);
	put(spot.H + 28, 1, 1);
	refused(length, length, 2, 8, 0);
}

/* 28: images of edition 1, as short as they can be, and those of edition 2 that say so. */
void mend_editions(void)
{
	edition_start(64, SHORT_L);
	edition_build();
	mend_older(older.length);
	edition_start(200, LONG_L);
	edition_build();
	mend_older(older.length);
	small(4);
	build();
	edition_turn(SHORT_L);
	mend_older(now.length);
}
