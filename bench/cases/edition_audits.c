/* Audit cases of #109: byte for byte, every difference a stray, the base named by the shipped word. */
#include "edition_cases.h"

#include <string.h>

static uint64_t strays;

/* The planned image as the vendor's; the shipped file is the same. */
static void ship_same(void)
{
	edition_build();
	memcpy(sheet, image, SPACE);
	strays = 0;
}

/* One byte of the shipped file, not turned before. */
static void stray(uint64_t at, uint64_t mask)
{
	put_sheet(at, 1, get_sheet(at, 1) ^ mask);
	strays++;
}

/* The base word of the shipped file; as many strays as it has bytes that differ. */
static void ship_base(uint64_t base)
{
	put_sheet(spot.H + 28, 4, base);
	for (uint64_t i = 28; i < 32; i++)
		strays += get_sheet(spot.H + i, 1) != get(spot.H + i, 1) ? 1 : 0;
}

/* The audit: settings never. */
static void audit_older(uint64_t places, uint64_t number)
{
	show_audit(older.length, older.length, places, number, 0, 0, strays);
}

/* Equal files, whatever stands at c and z; the list may be empty. */
static void older_equal(void)
{
	static const uint64_t c[] = { 0, 0x94, 0xFFFFFFFF, 64, 0x80000000 };
	for (size_t i = 0; i < COUNT(c); i++) {
		edition_start(64 + 7 * i, i % 2 == 0 ? SHORT_L : LONG_L);
		older.c = c[i];
		older.z = c[COUNT(c) - 1 - i];
		ship_same();
		audit_older(0, 0);
		audit_older(i, 0);
	}
}

/* One byte in every kind of place; those of edition 2's settings part too. */
static void older_kinds(uint64_t section, uint64_t L)
{
	edition_start(section, L);
	older.c = 180;
	older.z = 60;
	edition_build();
	const uint64_t f = spot.f, H = spot.H;
	const uint64_t at[] = {
		0, 32, 40, 49, 50, 71, f, f + 15, f + 17, f + 19, f + 20, f + 23, f + 24, f + 27, H, H + 3, H + 4, H + 8, H + 11, H + 12,
		H + 16, H + 23, H + 24, H + 27, H + 30, H + 31, H + 32, H + 35, H + 36, H + 40, H + 43, H + 44, H + 59, H + 60, H + 63,
		older.c - 1, older.c, older.c + 6, older.c + 31, older.c + 32, older.c + 33, older.c + older.z - 1, older.c + older.z,
		older.length - 2, older.length - 1,
	};
	for (size_t i = 0; i < COUNT(at); i++) {
		if (at[i] >= older.length)
			continue;
		ship_same();
		stray(at[i], i % 4 == 0 && at[i] != H + 31 ? 0xFF : UINT64_C(1) << i % 7);
		audit_older(1 + i % 2, 0);
		if (i % 3 == 0)
			audit_older(0, 20);
	}
}

/* The base word changed: its bytes are strays and no other word moves; a word that isn't legal is 18, after 19. */
static void older_bases(uint64_t L)
{
	static const uint64_t base[] = { 0, 0x1000, 0x00100000, 0xFFF81000, 0xFFFFF000, 0x12345000, 0x80000000 };
	edition_start(68, L);
	for (size_t i = 0; i < COUNT(base); i++) {
		ship_same();
		ship_base(base[i]);
		audit_older(strays + i % 2, 0);
		audit_older(strays - 1, 20);
		stray(older.length - 1, 0x80);
		audit_older(strays, 0);
		audit_older(1, strays > 1 ? 20 : 0);
	}
	for (uint64_t bit = 0; bit < 12; bit++) {
		ship_same();
		put_sheet(spot.H + 28, 4, UINT64_C(0x00345000) | UINT64_C(1) << bit);
		audit_older(bit % 5, 18);
		show_audit(older.length, older.length + 1 - bit % 3 * 2, 4, 19, 0, 0, 0);
	}
}

/* Base and size about 2^32, and other lengths. */
static void older_lengths(void)
{
	const uint64_t length[] = { 4095, 4096, 4097 };
	for (size_t i = 0; i < COUNT(length); i++) {
		edition_start(100, SHORT_L);
		edition_end(length[i]);
		ship_same();
		ship_base(0xFFFFF000);
		audit_older(strays, length[i] > 4096 ? 18 : 0);
	}
	const uint64_t other[] = { 0, 1, 71, spot.H + 27, spot.H + 31, older.length - 1, older.length + 1, 8192 };
	for (size_t i = 0; i < COUNT(other); i++)
		show_audit(older.length, other[i], i % 3, 19, 0, 0, 0);
}

/* Vendor images that are refused, before 18, 19 and 20. */
static void older_refused(void)
{
	static const uint64_t section[] = { 63, 64, 64, 75, 76, 64 };
	static const uint64_t revision[] = { 1, 0, 2, 3, 2, 1 };
	static const uint64_t L[] = { 60, 60, 60, 72, 60, 64 };
	static const uint64_t number[] = { 4, 4, 4, 4, 5, 5 };
	for (size_t i = 0; i < COUNT(number); i++) {
		edition_start(section[i], L[i]);
		older.revision = revision[i];
		ship_same();
		show_audit(older.length, older.length, 3, number[i], 0, 0, 0);
		put_sheet(spot.H + 28, 1, 1);
		show_audit(older.length, older.length + i % 2, 0, number[i], 0, 0, 0);
	}
	edition_start(64, SHORT_L);
	older.base = 0x800;
	ship_same();
	audit_older(0, 8);
	older.size++;
	ship_same();
	audit_older(0, 6);
}

/* The vendor's edition decides: of two images that differ in the revision byte alone, each as the vendor's. */
static void older_and_newer(unsigned k)
{
	small(k);
	build();
	memcpy(sheet, image, SPACE);
	put_sheet(now.c + 32, 1, get_sheet(now.c + 32, 1) ^ 0x3C);
	put_sheet(spot.H + 11, 1, OLDER);
	put_sheet(spot.H + 4, 4, SHORT_L);
	show_audit(now.length, now.length, 8, 0, 0, 1, 2);
	edition_turn(SHORT_L);
	put_sheet(spot.H + 11, 1, now.header_revision);
	show_audit(now.length, now.length, 8, 0, 0, 0, 2);
	show_audit(now.length, now.length, 1, 20, 0, 0, 2);
}

/* Many differences by the fixed sequence, lists of the right length and one place too short. */
static void older_several(unsigned count)
{
	for (unsigned i = 0; i < count; i++) {
		edition_start(64 + below(400), i % 2 == 0 ? SHORT_L : LONG_L);
		older.c = below(600);
		older.z = below(600);
		ship_same();
		for (uint64_t at = below(40); at < older.length; at += 1 + below(i % 3 == 0 ? 3 : 60))
			if (at < spot.H + 28 || at > spot.H + 29)
				stray(at, at == spot.H + 31 ? 0x0F : 1 + below(255));
		audit_older(strays + i % 2, 0);
		if (strays > 0)
			audit_older(strays - 1, 20);
	}
}

/* #109's share of the audit part. */
void audit_editions(void)
{
	older_equal();
	older_kinds(200, SHORT_L);
	older_kinds(200, LONG_L);
	older_kinds(64, SHORT_L);
	older_bases(SHORT_L);
	older_bases(LONG_L);
	older_lengths();
	older_refused();
	for (unsigned k = 0; k < SMALLS; k += 3)
		older_and_newer(k);
	older_several(40);
}
