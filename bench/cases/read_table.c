/* Reading cases: refusals 9 to 11, the patch table and the region. */
#include "read_cases.h"

/* ---- refusal 9 ---- */

/* Refusal 9: every byte of the marks, the revision and the count. */
void damage_table(unsigned k)
{
	static const uint64_t n[] = { 1025, 1026, 2048, 0xFFFFFFFF, 0x40000000, 0x40000001, 0x40000003,
				      0x80000000, 0xC0000003, 0x3FFFFFFF, 0x00010000, 0x7FFFFFFF };
	static const uint64_t revision[] = { 0, 2, 3, 0x81, 0xFF };
	start(k);
	for (uint64_t i = 0; i < 4; i++) {
		turn(spot.p + i, 0x20, 9);
		turn(spot.p + i, UINT64_C(1) << i, 9);
		if (now.guard != 0)
			turn(spot.g + i, UINT64_C(1) << i, 9);
	}
	for (size_t i = 0; i < COUNT(revision); i++)
		hit(spot.p + 6, 1, revision[i], 9);
	hit(spot.p + 6, 2, 0xFF01, 0);
	hit(spot.p + 6, 2, 0x0100, 9);
	for (size_t i = 0; i < COUNT(n); i++)
		hit(spot.p + 8, 4, n[i], 9);
	hit(spot.p + 8, 4, now.n - 1, 0);
	hit(spot.p + 8, 4, now.n + now.more_section / 4 + 1, 9);
	hit(spot.p + 8, 4, now.n + 0x80000000, 9);
	for (uint64_t more = 1; more < 4; more++) {
		now.more_section = more;
		settle();
		hit(spot.p + 8, 4, now.n + 1, 9);
	}
}

/* Refusal 9: the table cut by the section at every byte. */
void damage_cut(unsigned k)
{
	start(k);
	const uint64_t need = spot.E - (spot.f + 24);
	const uint64_t from = now.L + 2 < 74 ? 74 : now.L + 2;
	for (uint64_t S = from; S <= spot.S; S++) {
		if (now.guard > 40 && S > now.L + 20 && S + 20 < now.L + now.guard)
			continue;
		hit(spot.f + 24, 3, S, S < 76 ? 4 : S < now.L + 4 ? 5 : S < need ? 9 : 0);
	}
	now.n = 0;
	settle();
	hit(spot.f + 24, 3, spot.E - spot.f - 25, 9);
	hit(spot.f + 24, 3, spot.E - spot.f - 24, 0);
}

/* Refusals 4, 5 and 9: the image itself ending with the section, at every byte of the table. */
void damage_edge(unsigned k)
{
	start(k);
	const uint64_t need = spot.E - spot.f - 24;
	for (uint64_t S = 4; S <= need; S += S < 70 ? 9 : 1) {
		const uint64_t len = spot.f + 24 + S;
		build();
		put(32, 8, len);
		put(spot.f + 20, 3, 24 + S);
		put(spot.f + 24, 3, S);
		put(spot.H + 24, 4, len);
		mend();
		show(len, S < 76 ? 4 : S < now.L + 4 ? 5 : S < need ? 9 : 10, 0);
	}
}

/* Refusal 9: the length of FSPE. */
void damage_extended(unsigned k)
{
	static const uint64_t length[] = { 0, 1, 4, 23, 0xFFFFFFFF, 0x80000018, 0x00010018, 0x7FFFFFFF };
	start(k);
	if (now.guard == 0)
		now.guard = 28;
	settle();
	const uint64_t end = spot.f + 24 + spot.S;
	for (size_t i = 0; i < COUNT(length); i++)
		hit(spot.g + 4, 4, length[i], 9);
	hit(spot.g + 4, 4, end - spot.g, 9);
	hit(spot.g + 4, 4, end - spot.g + 1, 9);
	hit(spot.g + 4, 4, end - spot.g - 1, 9);
	hit(spot.g + 4, 4, TWO32 - spot.g, 9);
	hit(spot.g + 4, 4, now.guard + 4, 9);
	hit(spot.g + 4, 4, round_up(now.guard, 4), 0);
	hit(spot.g + 4, 4, round_up(now.guard, 4) + 1, 9);
	for (uint64_t guard = 8; guard < 33; guard++) {
		now.guard = guard;
		if (guard > 18 || guard % 4 == 0)
			anew(guard < 24 ? 9 : 0);
	}
}

/* Refusal 9: FSPE ending at, and past, the section's end with a table right after it. */
void damage_extended_end(unsigned k)
{
	for (uint64_t guard = 24; guard < 29; guard++) {
		start(k);
		now.guard = guard;
		settle();
		const uint64_t ends = spot.g + guard - (spot.f + 24);
		hit(spot.f + 24, 3, ends - 1, 9);
		hit(spot.f + 24, 3, ends, 9);
		hit(spot.f + 24, 3, ends + 1, 9);
		hit(spot.f + 24, 3, spot.p - spot.f - 24, 9);
		hit(spot.f + 24, 3, spot.p - spot.f - 24 + 12, 9);
	}
}

/* Refusal 9: two FSPE in a row, FSPE after FSPP, and a length that comes round to a table. */
void damage_extended_odd(unsigned k)
{
	start(k);
	now.guard = 48;
	settle();
	build();
	put(spot.g + 4, 4, 24);
	text(spot.g + 24, "FSPE");
	put(spot.g + 28, 4, 24);
	show(now.length, 9, 0);
	build();
	text(spot.g, "FSPP");
	show(now.length, 9, 0);
	build();
	text(spot.p, "FSPE");
	show(now.length, 9, 0);
	now.L = 256;
	settle();
	build();
	text(spot.H + 80, "FSPP");
	put(spot.H + 84, 4, 0x00010018);
	put(spot.H + 88, 4, 0);
	put(spot.g + 4, 4, TWO32 - spot.g + spot.H + 80);
	show(now.length, 9, 0);
	put(spot.g + 4, 4, TWO32 - spot.g + spot.H + 77);
	show(now.length, 9, 0);
	hit(spot.g + 4, 4, 0, 9);
	text(spot.g, "FSPP");
	put(spot.g + 6, 1, 1);
	put(spot.g + 8, 4, 0);
	show(now.length, 0, 0);
}

/* ---- refusals 10 and 11 ---- */

/* Refusal 10: one region, its marks standing where it says; the files are laid for it where it can be one. */
static void region(uint64_t c, uint64_t z, uint64_t number)
{
	const struct plan kept = now;
	if (number == 0)
		now.c = c, now.z = z;
	build();
	put(spot.H + 36, 4, c);
	put(spot.H + 40, 4, z);
	if (c <= SPACE - 8 && c + 6 >= spot.E)
		put_marks(c);
	show(now.length, number, 0);
	now = kept;
}

/* Refusal 10: z and c at their bounds and near 2^32. */
void damage_config(unsigned k)
{
	static const uint64_t z[] = { 0, 1, 31, 65537, 0x00010020, 0x00020000, 0x80000020, 0xFFFFFFFF };
	static const uint64_t c[] = { 0, 72, 0x80000000, 0xFFFFFFFF, 0xFFFFFFE0, 0xFFFFFFF8, 0x01000000 };
	start(k);
	for (size_t i = 0; i < COUNT(z); i++)
		region(now.c, z[i], 10);
	for (size_t i = 0; i < COUNT(c); i++)
		region(c[i], now.z, 10);
	region(now.c, 32, 0);
	region(now.c, now.z + 64, 0);
	region(TWO32 - now.z, now.z, 10);
	region(TWO32 - now.z + 8, now.z, 10);
	region(TWO32 - 31, 32, 10);
	region(now.c, TWO32 - now.c, 10);
	region(now.c, TWO32 - now.c + 40, 10);
	region(spot.E, now.z, 0);
	region(spot.E, 32, 0);
	region(spot.E - 1, now.z, 10);
	region(spot.E - 2, 32, 10);
	region(spot.E - 4, 65536, 10);
	region(spot.p, 32, 10);
	region(spot.H, 32, 10);
}

/* Refusal 10: c+z against the length. */
void damage_config_end(unsigned k)
{
	start(k);
	now.before = true;
	settle();
	region(now.length - 32, 32, 0);
	region(now.length - 31, 32, 10);
	region(now.length - 32, 33, 10);
	region(now.length - 32, 31, 10);
	region(now.length - 33, 33, 0);
	region(now.length - now.z, now.z, 0);
	region(now.length - now.z + 1, now.z, 10);
	region(now.length, 32, 10);
	region(now.length - 8, 32, 10);
	region(now.V, now.length - now.V, now.length - now.V >= 32 ? 0 : 10);
	region(now.c, now.length - now.c, 0);
	region(now.c, now.length - now.c + 1, 10);
}

/* Refusal 10: 65,536 and one more, both fitting and not. */
void damage_config_large(void)
{
	start(0);
	now.length = now.V = SPACE;
	now.base = 0;
	now.before = true;
	settle();
	region(now.c, 65536, 0);
	region(now.c, 65537, 10);
	region(now.length - 65536, 65536, 0);
	region(now.length - 65535, 65536, 10);
	region(now.length - 65537, 65537, 10);
	region(now.length - 65535, 65535, 0);
	region(now.c, 100000, 10);
	now.length = now.V = 65536 + now.c;
	anew(0);
	region(now.c, 65536, 0);
	region(now.c, 65537, 10);
	region(now.c + 1, 65536, 10);
}

/* Refusal 11: the two marks. */
void damage_upd(unsigned k)
{
	static const uint64_t line[] = { 0, '-', 0x5E, 0x60, 0x7F, 0xDF, 'T', 0xFF };
	static const uint64_t other[] = { 0, '_', 'T', 'M', 'S', 'I', 'O', 't', 'm', 's', 'i', 'X', 0xFF };
	start(k);
	const uint64_t own = (uint8_t)letter[now.component];
	for (size_t i = 0; i < COUNT(line); i++)
		hit(now.c + 6, 1, line[i], 11);
	for (size_t i = 0; i < COUNT(other); i++)
		hit(now.c + 7, 1, other[i], other[i] == own ? 0 : 11);
	for (uint64_t bit = 0; bit < 8; bit++)
		turn(now.c + 7, UINT64_C(1) << bit, 11);
	hit(now.c + 6, 2, own | '_' << 8, 11);
	hit(now.c + 5, 1, '_', 0);
	hit(now.c + 8, 1, own, 0);
	hit(now.c, 6, 0, 0);
	for (uint64_t at = now.c + 5; at < now.c + 9; at++) {
		build();
		put(now.c + 4, 6, 0);
		put(at, 1, '_');
		put(at + 1, 1, own);
		show(now.length, at == now.c + 6 ? 0 : 11, 0);
	}
}
