/* Audit cases: the patch words, wherever they stand and however they were moved. */
#include "audit_cases.h"

#include <string.h>

/* "The audit": words left where they were, moved twice, or moved without the base word. */
void audit_unmoved(unsigned k)
{
	small(k);
	for (uint64_t j = 0; j < now.n; j++) {
		ship(random_base());
		memcpy(sheet + place_of(j), image + place_of(j), 4);
		audit_counting(6);
	}
	ship(random_base());
	for (uint64_t j = 0; j < now.n; j++)
		memcpy(sheet + place_of(j), image + place_of(j), 4);
	audit_counting(4 * now.n);
	ship(random_base());
	memcpy(sheet + spot.H + 28, image + spot.H + 28, 4);
	audit_counting(4 * now.n + 32);
	ship(now.base);
	put_sheet(spot.H + 28, 4, random_base());
	audit_counting(4 * now.n + 33);
	const uint64_t base = random_base();
	ship(base);
	const uint64_t at = place_of(1);
	put_sheet(at, 4, get_sheet(at, 4) + base - now.base);
	audit_counting(5);
}

/* Refusal 14's bounds: words at both ends of the region, at the image's end, touching, in any order. */
void audit_places(unsigned k)
{
	for (size_t i = 0; i < ARRANGEMENTS; i++) {
		small(k);
		arrange(i);
		ship(random_base());
		audit(i % 3, 0);
		turn_byte(place_of(i % 3) + i % 4, 0x40);
		turn_byte(place_of((i + 1) % 3) + 3, 0x81);
		audit(2 + i % 2, 0);
		memcpy(sheet + place_of((i + 2) % 3), image + place_of((i + 2) % 3), 4);
		audit_counting(7);
	}
}

/* "Patch table": n of 0, 1, 2, 3 and 16. */
void audit_counts(unsigned k)
{
	static const uint64_t n[] = { 0, 1, 2, 3, 16 };
	for (size_t i = 0; i < COUNT(n); i++) {
		small(k);
		now.n = n[i];
		fit(i);
		ship(random_base());
		audit(0, 0);
		turn_byte(spot.E - 1, 0x08);
		if (now.n > 0)
			turn_byte(place_of(now.n - 1) + 2, 0x03);
		turn_byte(now.c + 33, 0x10);
		audit_exact();
	}
}

/* "Patch table": 1,024 words, some of them not moved. */
void audit_most(void)
{
	small(1);
	now.n = 1024;
	now.before = true;
	now.fill = 65536;
	fit(0);
	ship(0xFFF00000);
	audit(0, 0);
	turn_byte(place_of(1023) + 3, 0x01);
	turn_byte(place_of(0), 0x01);
	turn_byte(place_of(512) + 1, 0x01);
	turn_byte(now.c + 40, 0xFF);
	turn_byte(now.length - 1, 0xFF);
	audit(4, 20);
	audit(5, 0);
	for (uint64_t j = 100; j < 200; j++)
		memcpy(sheet + place_of(j), image + place_of(j), 4);
	audit_counting(300);
}
