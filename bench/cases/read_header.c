/* Reading cases: refusals 5 to 8, the header. */
#include "read_cases.h"

#include <string.h>

/* Refusal 5: the mark, also standing elsewhere. */
void damage_mark(unsigned k)
{
	start(k);
	for (uint64_t i = 0; i < 4; i++) {
		turn(spot.H + i, 0x20, 5);
		turn(spot.H + i, UINT64_C(1) << i, 5);
	}
	const uint64_t off[] = { 4, 8, 1, 16 };
	for (size_t i = 0; i < COUNT(off); i++) {
		build();
		memmove(image + spot.H + off[i], image + spot.H, 72);
		put(spot.H, off[i] < 4 ? off[i] : 4, 0);
		show(now.length, 5, 0);
	}
	build();
	put(spot.H, 4, 0);
	text(now.length - 4, "FSPH");
	show(now.length, 5, 0);
	text(spot.E + 4, "FSPH");
	show(now.length, 5, 0);
	hit(spot.H, 4, 0x46535048, 5);
}

/* Refusal 5: the revision byte and L. */
void damage_header(unsigned k)
{
	static const uint64_t revision[] = { 0, 1, 2, 3, 4, 5, 6, 7, 0x80, 0xFF };
	static const uint64_t L[] = { 0, 4, 0xFFFFFFFF, 0xFFFFFFFC, 0xFFFFFFFB, 0x80000048, 0x00010048, 0x7FFFFFFF };
	start(k);
	for (size_t i = 0; i < COUNT(revision); i++)
		hit(spot.H + 11, 1, revision[i], revision[i] < 3 || (revision[i] >= 6 && now.L < 80) ? 5 : 0);
	hit(spot.H + 10, 1, 0, 0);
	hit(spot.H + 10, 1, 0xFF, 0);
	for (size_t i = 0; i < COUNT(L); i++)
		hit(spot.H + 4, 4, L[i], 5);
	hit(spot.f + 24, 3, now.L + 4, 9);
	hit(spot.f + 24, 3, now.L + 3, now.L == 72 ? 4 : 5);
	if (spot.S - 4 <= 256) {
		hit(spot.H + 4, 4, spot.S - 4, 9);
		hit(spot.H + 4, 4, spot.S - 3, 5);
	}
	for (uint64_t length = 66; length < 72; length++) {
		now.L = length;
		anew(5);
	}
	for (uint64_t length = 256; length < 262; length++) {
		now.L = length;
		anew(length > 256 ? 5 : 0);
	}
}

/* Refusal 6. */
void damage_size(unsigned k)
{
	start(k);
	const uint64_t at = spot.H + 24;
	hit(at, 4, now.length - 1, 6);
	hit(at, 4, now.length + 1, 6);
	hit(at, 4, 0, 6);
	hit(at, 4, 0xFFFFFFFF, 6);
	hit(at, 4, now.length + 0x80000000, 6);
	hit(at, 4, now.length + 0x01000000, 6);
	hit(at, 4, now.length << 8, 6);
	hit(at, 4, now.length ^ 0x10000, 6);
	hit(at, 4, now.length - 4, 6);
	hit(at, 4, now.V - 1, 6);
	if (now.V < now.length)
		hit(at, 4, now.V, 6);
}

/* Refusal 7: all sixteen values of the top four bits. */
void damage_component(unsigned k)
{
	start(k);
	for (uint64_t top = 0; top < 16; top++) {
		const uint64_t low = below(4096);
		const uint64_t aim = top < 1 || top > 4 ? 7 : top == now.component ? 0 : 11;
		hit(spot.H + 34, 2, top << 12 | low, aim);
		if (top >= 1 && top <= 4) {
			put(now.c + 7, 1, (uint8_t)letter[top]);
			show(now.length, 0, 0);
		}
	}
	hit(spot.H + 34, 2, now.component, 7);
	hit(spot.H + 34, 2, now.component << 8, 7);
	hit(spot.H + 34, 2, 0x0FFF, 7);
	hit(spot.H + 34, 2, 0x8000 | now.component << 12, 7);
	hit(spot.H + 32, 2, 0xFFFF, 0);
	hit(spot.H + 32, 2, 0, 0);
}

/* Refusal 8: the twelve low bits and 2^32. */
void damage_base(unsigned k)
{
	start(k);
	const uint64_t at = spot.H + 28;
	const uint64_t highest = (TWO32 - now.length) / 4096 * 4096;
	for (uint64_t bit = 0; bit < 12; bit++)
		hit(at, 4, now.base | UINT64_C(1) << bit, 8);
	hit(at, 4, 1, 8);
	hit(at, 4, 0x800, 8);
	hit(at, 4, 0xFFF, 8);
	hit(at, 4, highest, 0);
	if (highest + 4096 < TWO32)
		hit(at, 4, highest + 4096, 8);
	if (highest < 0xFFFFF000)
		hit(at, 4, 0xFFFFF000, 8);
	hit(at, 4, 0xFFFFFFFF, 8);
	hit(at, 4, 0xFFFFF800, 8);
	hit(at, 4, 0x80000800, 8);
	hit(at, 4, highest - 1, 8);
}

/* Refusal 8: base + size about 2^32 for lengths about a multiple of 4,096. */
void damage_base_length(void)
{
	for (uint64_t length = 4093; length < 4100; length++) {
		start(3);
		now.length = length;
		now.base = 0xFFFFF000;
		anew(length > 4096 ? 8 : 0);
		now.base = 0xFFFFE000;
		anew(0);
	}
}
