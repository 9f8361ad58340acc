/* Reading cases: whole images, every rule at its bounds. */
#include "read_cases.h"

/* Refusal 2: h from 72 on, with f = round8(h). */
void whole_volume_header(void)
{
	static const uint64_t h[] = { 72, 74, 76, 78, 80, 82, 96, 100, 128, 254, 256, 258,
				      1000, 4094, 4096, 32766, 32768, 65528, 65530, 65532, 65534 };
	for (size_t i = 0; i < COUNT(h); i++) {
		start(0);
		now.h = h[i];
		if (now.h > 4096)
			now.length = now.V = SPACE;
		anew(0);
	}
}

/* Refusal 2: x and e, with f = round8(x+e). */
void whole_extension(void)
{
	static const uint64_t x[] = { 72, 73, 79, 80, 200, 255, 256, 65519, 65520, 65535 };
	static const uint64_t e[] = { 20, 21, 24, 27, 28, 29, 100, 300 };
	for (size_t i = 0; i < COUNT(x); i++) {
		for (size_t j = 0; j < COUNT(e); j++) {
			start(i % 2 == 0 ? 0 : 3);
			now.x = x[i];
			now.e = e[j];
			if (now.x > 4096)
				now.length = now.V = SPACE, now.base = 0;
			if ((i + j) % 2 == 0)
				anew(0);
		}
	}
	start(0);
	now.length = now.V = SPACE;
	now.x = 80;
	now.e = 66000;
	anew(0);
}

/* Refusals 2, 3 and 4: V, s and the section size at their bounds. */
void whole_room(void)
{
	static const uint64_t more[] = { 0, 1, 2, 3, 4, 5, 7, 8, 100, 1000 };
	for (unsigned k = 0; k < PLANS; k++) {
		start(k);
		for (size_t i = 0; i < COUNT(more); i++) {
			now.more_section = more[i];
			now.more_file = more[(i * 3 + 1) % COUNT(more)];
			settle();
			now.V = spot.f + spot.s + (i % 3 == 0 ? 0 : i);
			anew(0);
			now.V = now.length - i % 2;
			if (i < 3)
				anew(0);
		}
	}
}

/* Refusal 5: every L from 72 to 256, and the table at round4(H+L). */
void whole_header_length(void)
{
	for (uint64_t L = 72; L <= 256; L++) {
		start(L % 2 == 0 ? 0 : 1);
		now.n = 1;
		now.L = L;
		now.guard = L % 5 == 0 ? 24 : 0;
		if (L >= 80 && L % 8 < 5)
			now.header_revision = 6, now.extended = L * 257;
		if (L % 4 == 1 || L < 78 || L > 252 || below(8) == 0)
			anew(0);
	}
}

/* Refusals 5 and 7 and the handed-on numbers. */
void whole_header_numbers(void)
{
	static const uint64_t revision[] = { 3, 4, 5, 6, 7, 8, 15, 16, 31, 63, 64,
					     126, 127, 128, 129, 131, 200, 254, 255 };
	static const uint64_t low[] = { 0, 1, 2, 0x800, 0x0FF, 0xF00, 0x400, 0xFFF };
	start(3);
	for (size_t i = 0; i < COUNT(revision); i++)
		hit(spot.H + 11, 1, revision[i], 0);
	start(0);
	for (size_t i = 0; i < COUNT(revision); i++)
		hit(spot.H + 11, 1, revision[i], revision[i] < 6 ? 0 : 5);
	for (unsigned k = 0; k < PLANS; k++) {
		start(k);
		for (size_t i = 0; i < COUNT(low); i++)
			hit(spot.H + 34, 2, now.component << 12 | low[i], 0);
		hit(spot.H + 16, 8, UINT64_MAX, 0);
		hit(spot.H + 16, 8, 0, 0);
		hit(spot.H + 16, 8, UINT64_C(0x8000000000000001), 0);
		hit(spot.H + 16, 8, UINT64_C(0x0807060504030201), 0);
		hit(spot.H + 12, 4, 0xFFFFFFFF, 0);
		hit(spot.H + 12, 4, 0, 0);
		hit(spot.H + 12, 4, 0x80000000, 0);
	}
}

/* Refusal 8: legal bases. */
void whole_base(void)
{
	static const uint64_t base[] = { 0, 0x1000, 0x2000, 0x00100000, 0x7FFFF000, 0x80000000,
					 0x80001000, 0xC0000000, 0xFF000000 };
	for (unsigned k = 0; k < PLANS; k++) {
		start(k);
		for (size_t i = 0; i < COUNT(base); i++)
			hit(spot.H + 28, 4, base[i], 0);
		hit(spot.H + 28, 4, (TWO32 - now.length) / 4096 * 4096, 0);
	}
}

/* "Patch table": FSPE lengths and round4, counts, the length and the byte at p+7 not judged. */
void whole_table(void)
{
	static const uint64_t guard[] = { 0, 24, 25, 26, 27, 28, 29, 30, 31, 32, 63, 100, 255, 256, 1001 };
	static const uint64_t n[] = { 0, 1, 2, 3, 16 };
	for (size_t i = 0; i < COUNT(guard); i++) {
		start((unsigned)(i % 2));
		now.guard = guard[i];
		for (size_t j = 0; j < COUNT(n); j++) {
			now.n = n[j];
			if ((i + j) % 2 == 0)
				anew(0);
		}
	}
	for (unsigned k = 0; k < PLANS; k++) {
		start(k);
		hit(spot.p + 4, 2, 0, 0);
		hit(spot.p + 4, 2, 0xFFFF, 0);
		hit(spot.p + 4, 2, 12, 0);
		hit(spot.p + 7, 1, 1, 0);
		hit(spot.p + 7, 1, 0xFF, 0);
		now.n = 0;
		anew(0);
	}
}

/* "Where an entry points": bit 31, bits 30..28 of every value, bits 27..24 0 and 15. */
void whole_entry_bits(void)
{
	for (unsigned k = 0; k < 2; k++) {
		start(k);
		const uint64_t place = now.c + now.z + 17;
		for (uint64_t bits = 0; bits < 8; bits++) {
			for (uint64_t i = k; i < now.n; i += now.n) {
				entry(i, reserved(word(place, false, 0), bits), bits == 0 ? 0 : 22);
				entry(i, reserved(word(place, false, 15), bits), bits == 0 ? 0 : 22);
				entry(i, reserved(word(place, true, 0), bits), bits == 0 ? 0 : 22);
				entry(i, reserved(word(place, true, 15), bits), bits == 0 ? 0 : 22);
			}
		}
	}
}

/* Refusal 14: words at E, at the region's two ends, at the image's end, touching each other. */
void whole_places(void)
{
	for (unsigned k = 0; k < PLANS; k++) {
		start(k);
		const uint64_t end = now.c + now.z;
		const uint64_t place[][3] = {
			{ spot.E, now.c - 4, end }, { end, now.c - 4, spot.E },
			{ end, end + 4, end + 8 }, { end + 8, end + 4, end },
			{ end + 4, end, end + 8 }, { spot.E, spot.E + 4, spot.E + 8 },
			{ spot.E + 8, spot.E, spot.E + 4 },
			{ now.length - 4, now.length - 8, now.length - 12 },
			{ now.length - 12, now.length - 4, now.length - 8 },
			{ spot.E + 1, spot.E + 5, end + 3 }, { now.length - 5, end, spot.E },
		};
		for (size_t i = 0; i < COUNT(place); i++) {
			for (uint64_t j = 0; j < 3; j++)
				now.entry[j] = word(place[i][j], (i + j + k) % 3 != 1, 15 * (j % 2));
			plain(0);
		}
	}
}

/* Refusal 10: z and c at their bounds. */
void whole_region(void)
{
	static const uint64_t z[] = { 32, 33, 34, 64, 255, 256, 1000, 65535, 65536 };
	for (size_t i = 0; i < COUNT(z); i++) {
		start(i % 2 == 0 ? 0 : 1);
		now.z = z[i];
		if (now.z > 1000)
			now.length = now.V = SPACE, now.base = 0;
		anew(0);
		now.gap = 0;
		anew(0);
		now.before = true;
		anew(0);
		now.gap = 1;
		anew(0);
		now.n = 0;
		now.c = now.length - now.z;
		lay_out();
		plain(0);
		now.n = 3;
		settle();
		now.c = now.length - now.z;
		plain(0);
	}
}

/* Refusals 1 and 10: the shortest image for a table, c = E, c+z and V and s ending the image. */
void whole_tight(void)
{
	static const uint64_t n[] = { 0, 1, 2, 16 };
	for (unsigned k = 0; k < PLANS; k++) {
		for (size_t i = 0; i < COUNT(n); i++) {
			start(k);
			now.n = n[i];
			now.before = true;
			now.gap = 0;
			now.z = 32;
			settle();
			now.length = now.c + now.z;
			now.V = i % 2 == 0 ? now.length : spot.f + FILE_HEADER + spot.S + now.more_file;
			now.base = (TWO32 - now.length) / 4096 * 4096;
			anew(0);
			hit(spot.H + 28, 4, now.base + 4096, now.base == 0xFFFFF000 ? 0 : 8);
		}
	}
}

/* "Patch table": 1,024 entries and one more, faults at both ends and in the middle. */
void whole_most(void)
{
	start(1);
	now.length = now.V = 32768;
	now.n = 1024;
	now.more_section = 8;
	settle();
	plain(0);
	hit(spot.p + 8, 4, 1025, 9);
	hit(spot.p + 8, 4, 1023, 0);
	entry(0, word(spot.E - 1, false, 0), 14);
	entry(1023, now.entry[0], 14);
	entry(1023, now.entry[1022] + 3, 14);
	entry(1023, now.entry[1022] + 4, 0);
	entry(511, word(now.length - 3, true, 15), 13);
	entry(1023, word(now.length - 3, false, 0), 13);
	entry(1023, word(now.length - 4, false, 15), 0);
	entry(1023, 0x0E000000, 12);
	entry(1023, reserved(now.entry[1023], 4), 22);
	put(spot.p + 12 + 4 * 511, 4, reserved(now.entry[511], 1));
	show(now.length, 22, 511);
	entry(512, 0xF1FFFFFC, 12);
	put(spot.p + 12, 4, 0x00FFFFFF);
	show(now.length, 12, 512);
	hit(spot.f + 24, 3, spot.S - 8, 0);
	hit(spot.f + 24, 3, spot.S - 9, 9);
	now.n = 1025;
	anew(9);
	now.n = 1024;
	now.before = true;
	now.more_section = 0;
	anew(0);
}
