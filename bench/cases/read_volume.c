/* Reading cases: refusals 1 to 4, the volume, the file and the section. */
#include "read_cases.h"

#include <string.h>

/* ---- refusals 1 and 2 ---- */

/* Refusal 1: both sides of 72. */
void damage_length(unsigned k)
{
	static const uint64_t len[] = { 0, 1, 40, 70, 71 };
	start(k);
	build();
	for (size_t i = 0; i < COUNT(len); i++)
		show(len[i], 1, 0);
	show(72, 2, 0);
	show(73, 2, 0);
	show(now.length - 1, now.V < now.length ? 6 : 2, 0);
	if (now.length < SPACE)
		show(now.length + 1, 6, 0);
}

/* Refusals 1 to 3: volumes of 71 to 97 bytes and nothing after them. */
void damage_tiny(void)
{
	start(0);
	for (uint64_t len = 68; len < 98; len++) {
		build();
		put(32, 8, len);
		mend();
		show(len, len < 72 ? 1 : 3, 0);
	}
	hit(32, 8, 72, 3);
	show(72, 3, 0);
	show(71, 1, 0);
	hit(32, 8, 73, 3);
	show(72, 2, 0);
	hit(32, 8, 71, 2);
	show(72, 2, 0);
}

/* Refusal 2: the mark at 40, and h. */
void damage_volume(unsigned k)
{
	start(k);
	for (uint64_t i = 40; i < 44; i++) {
		turn(i, 0x20, 2);
		turn(i, 0x01, 2);
	}
	hit(40, 4, 0x4856465F, 0);
	hit(40, 4, 0x5F465648, 2);
	hit(48, 2, 71, 2);
	hit(48, 2, 70, 2);
	hit(48, 2, 0, 2);
	hit(48, 2, 1, 2);
	hit(48, 2, 52, 2);
	hit(48, 2, now.h + 1, 2);
	hit(48, 2, now.h - 1, 2);
	hit(48, 2, 65535, 2);
	if (now.length < 65534)
		hit(48, 2, 65534, 2);
	if (now.x == 0 && now.h < 65000)
		hit(48, 2, now.h + 2, 3);
	hit(48, 2, now.V, now.V < 65535 && now.x == 0 ? 3 : 2);
	hit(48, 2, now.V + 2, 2);
}

/* Refusal 2: another V, the files being laid for it. */
static void volume_of(uint64_t V, uint64_t number)
{
	const uint64_t kept = now.V;
	now.V = V;
	plain(number);
	now.V = kept;
}

/* Refusal 2: V against h and the length, and its high half. */
void damage_volume_length(unsigned k)
{
	start(k);
	volume_of(now.length, 0);
	hit(32, 8, now.length + 1, 2);
	volume_of(now.length - 1, 0);
	hit(32, 8, now.h, now.x == 0 ? 3 : 2);
	hit(32, 8, now.h - 1, 2);
	hit(32, 8, now.h - 2, 2);
	hit(32, 8, 0, 2);
	hit(32, 8, now.V + TWO32, 2);
	hit(32, 8, now.V + (UINT64_C(1) << 63), 2);
	hit(32, 8, now.V + (UINT64_C(1) << 40), 2);
	hit(32, 8, UINT64_MAX, 2);
	hit(32, 8, UINT64_MAX - now.length, 2);
}

/* Refusal 2: the sum, and bytes in and after it. */
void damage_volume_sum(unsigned k)
{
	start(k);
	build();
	const uint64_t sum = get(50, 2);
	const uint64_t in[] = { 0, 1, 16, 17, 31, 44, 47, 50, 51, 54, 55, 56, 71, now.h - 2, now.h - 1 };
	raw(50, 2, sum + 1, 2);
	raw(50, 2, sum - 1, 2);
	raw(50, 2, sum + 256, 2);
	raw(50, 2, sum - 256, 2);
	raw(50, 2, sum + 32768, 2);
	for (size_t i = 0; i < COUNT(in); i++)
		turn_raw(in[i], UINT64_C(1) << i % 8, 2);
	if (now.x > now.h)
		turn_raw(now.h, 0x10, 0);
	if (now.x != 0)
		turn_raw(now.x, 0x10, 0);
	turn_raw(now.length - 1, 0xFF, 0);
}

/* Refusal 2: an odd h that breaks nothing else. */
void damage_odd(void)
{
	static const uint64_t h[] = { 74, 76, 80, 98, 100 };
	for (size_t i = 0; i < COUNT(h); i++) {
		start(0);
		now.h = h[i];
		anew(0);
		hit(48, 2, now.h - 1, 2);
	}
	start(0);
	build();
	put(71, 1, 0);
	put(48, 2, 71);
	mend();
	show(now.length, 2, 0);
	put(48, 2, 70);
	put(70, 2, 0);
	mend();
	show(now.length, 2, 0);
	put(48, 2, 72);
	mend();
	show(now.length, 0, 0);
}

/* Refusal 2: x against h, the file staying where it is. */
void damage_extension_place(void)
{
	static const uint64_t x[] = { 97, 96, 95, 94, 90, 72, 71, 54, 2, 1 };
	for (size_t i = 0; i < COUNT(x); i++) {
		start(1);
		now.x = x[i];
		now.e = 141 - now.x;
		anew(now.x >= now.h ? 0 : 2);
	}
	for (unsigned k = 0; k < PLANS; k++) {
		start(k);
		hit(52, 2, now.h - 1, 2);
		hit(52, 2, 1, 2);
		hit(52, 2, 65535, 2);
		hit(52, 2, 0, now.x == 0 ? 0 : 3);
		if (now.length < 65000) {
			hit(52, 2, 0xFFF0, 2);
			hit(52, 2, 0xFFEC, 2);
			hit(52, 2, now.V - 19, 2);
			hit(52, 2, now.V, 2);
		}
	}
}

/* Refusal 2: e, x+20 and x+e against V. */
void damage_extension_length(unsigned k)
{
	static const uint64_t e[] = { 0, 1, 18, 19, 20 };
	static const uint64_t high[] = { 0xFFFFFFFF, 0xFFFFFFEC, 0x80000014, 0x7FFFFFFF, 0x01000014 };
	start(k);
	const uint64_t x = now.x;
	hit(x + 16, 4, now.V - x, 3);
	hit(x + 16, 4, now.V - x + 1, 2);
	for (size_t i = 0; i < COUNT(high); i++)
		hit(x + 16, 4, high[i], 2);
	hit(x + 16, 4, TWO32 - x, 2);
	hit(x + 16, 4, TWO32 - x + 72, 2);
	hit(x + 16, 4, now.e + 0x10000, 2);
	for (size_t i = 0; i < COUNT(e); i++) {
		now.e = e[i];
		anew(now.e < 20 ? 2 : 0);
	}
	for (uint64_t V = x + 18; V < x + 22; V++) {
		hit(32, 8, V, V < x + 20 ? 2 : 3);
		now.V = V;
		hit(x + 16, 4, 21, V < x + 21 ? 2 : 3);
	}
}

/* Refusal 2: the image itself ending about x+20. */
void damage_extension_cut(unsigned k)
{
	start(k);
	for (uint64_t V = now.x + 14; V < now.x + 22; V++) {
		build();
		put(32, 8, V);
		put(now.x + 16, 4, 20);
		mend();
		show(V, V < now.x + 20 ? 2 : 3, 0);
	}
}

/* Refusal 2: an x+e that would come round to a whole file if it were cut down. */
void damage_extension_wrap(void)
{
	static const uint64_t x[] = { 4000, 7000, 8172, 8173, 8100 };
	for (size_t i = 0; i < COUNT(x); i++) {
		start(0);
		build();
		put(52, 2, x[i]);
		put(x[i] + 16, 4, TWO32 - x[i] + 72);
		mend();
		show(now.length, 2, 0);
		put(x[i] + 16, 4, 20);
		show(now.length, x[i] + 20 > now.V ? 2 : 3, 0);
	}
	start(2);
	build();
	put(52, 2, 65535);
	put(65551, 4, TWO32 - 65535 + 65536);
	show(now.length, 2, 0);
}

/* ---- refusals 3 and 4 ---- */

/* Refusal 3: the name. */
void damage_name(unsigned k)
{
	start(k);
	for (uint64_t i = 0; i < 16; i++) {
		turn(spot.f + i, UINT64_C(1) << i % 8, 3);
		if (k < 2)
			turn(spot.f + i, 0xFF, 3);
	}
	build();
	memset(image + spot.f, 0xFF, 16);
	mend();
	show(now.length, 3, 0);
	hit(spot.f, 4, 0x912740BE, 0);
	hit(spot.f, 4, 0xBE402791, 3);
}

/* Refusal 3: attributes, the sum, and the two bytes outside it. */
void damage_file_header(unsigned k)
{
	start(k);
	for (uint64_t bit = 0; bit < 8; bit++)
		turn(spot.f + 19, UINT64_C(1) << bit, bit == 0 ? 3 : 0);
	hit(spot.f + 19, 1, 0xFE, 0);
	hit(spot.f + 19, 1, 0xFF, 3);
	for (uint64_t i = 16; i < 24; i++) {
		turn_raw(spot.f + i, 0x02, i == 17 || i == 23 ? 0 : 3);
		turn_raw(spot.f + i, 0x80, i == 17 || i == 23 ? 0 : 3);
	}
	raw(spot.f + 17, 1, 0, 0);
	raw(spot.f + 17, 1, 0xFF, 0);
	raw(spot.f + 23, 1, 0, 0);
	raw(spot.f + 23, 1, 0xFF, 0);
	build();
	const uint64_t sum = get(spot.f + 16, 1);
	raw(spot.f + 16, 1, sum + 1, 3);
	raw(spot.f + 16, 1, sum - 1, 3);
	raw(spot.f + 16, 1, sum - get(spot.f + 17, 1), 3);
	raw(spot.f + 16, 1, sum - get(spot.f + 23, 1), 3);
	turn(spot.f + 18, 0xFF, 0);
	turn(spot.f + 18, 0x01, 0);
}

/* Refusal 3: f+24 and s against V. */
void damage_file_length(unsigned k)
{
	start(k);
	for (uint64_t more = 22; more < 29; more++)
		hit(32, 8, spot.f + more, 3);
	hit(32, 8, spot.f, 3);
	hit(32, 8, spot.f + spot.s - 1, 3);
	hit(32, 8, spot.f + spot.s, 0);
	hit(32, 8, spot.f + spot.s + 1, 0);
	hit(spot.f + 20, 3, 0, 3);
	hit(spot.f + 20, 3, 24, 3);
	hit(spot.f + 20, 3, 27, 3);
	hit(spot.f + 20, 3, 28, 4);
	hit(spot.f + 20, 3, 29, 4);
	build();
	put(spot.f + 18, 1, TYPE_RAW);
	put(spot.f + 20, 3, now.V - spot.f);
	mend();
	show(now.length, 0, 0);
	hit(spot.f + 20, 3, now.V - spot.f + 1, 3);
	hit(spot.f + 20, 3, 0xFFFFFF, 3);
	hit(spot.f + 20, 3, spot.s + 0x800000, 3);
	hit(spot.f + 20, 3, spot.s - now.more_file - 1, 4);
	now.more_file = 0;
	anew(0);
}

/* Refusal 3: a whole file standing eight bytes off, or before round8. */
void damage_file_place(unsigned k)
{
	static const uint64_t off[] = { 4, 8, 16 };
	for (size_t i = 0; i < COUNT(off); i++) {
		start(k);
		build();
		memmove(image + spot.f + off[i], image + spot.f, spot.s);
		put(spot.f, 1, 0);
		mend_volume();
		show(now.length, 3, 0);
	}
	start(0);
	now.h = 76 + 8 * k;
	settle();
	build();
	memmove(image + now.h, image + spot.f, spot.s);
	mend_volume();
	show(now.length, 3, 0);
}

/* Refusal 4: the type and the size of the section. */
void damage_section(unsigned k)
{
	static const uint64_t type[] = { 0, 0x18, 0x1A, 0x10, 0x17, 0x09, 0x39, 0x99, 0x91, 0xFF };
	start(k);
	for (size_t i = 0; i < COUNT(type); i++)
		hit(spot.f + 27, 1, type[i], 4);
	hit(spot.f + 24, 3, 0, 4);
	hit(spot.f + 24, 3, 28, 4);
	hit(spot.f + 24, 3, 75, 4);
	hit(spot.f + 24, 3, 76, now.L == 72 ? 9 : 5);
	hit(spot.f + 24, 3, 77, now.L <= 73 ? 9 : 5);
	hit(spot.f + 24, 3, spot.s - 24, 0);
	hit(spot.f + 24, 3, spot.s - 23, 4);
	hit(spot.f + 24, 3, spot.s, 4);
	hit(spot.f + 24, 3, 0xFFFFFF, 4);
	hit(spot.f + 24, 3, spot.S + 0x10000, 4);
	hit(spot.f + 20, 3, 24 + 76, 4);
	hit(spot.f + 20, 3, 24 + 75, 4);
	build();
	put(spot.f + 20, 3, 24 + 76);
	put(spot.f + 24, 3, 76);
	mend();
	show(now.length, now.L == 72 ? 9 : 5, 0);
	put(spot.f + 20, 3, 24 + 75);
	mend();
	show(now.length, 4, 0);
	put(spot.f + 24, 3, 75);
	show(now.length, 4, 0);
}
