/* Reading cases: the extended number of #102, from header revision 6 on at H+76. */
#include "read_cases.h"

/* The first plan with another header revision and L, laid out anew. */
static void start_revision(uint64_t revision, uint64_t L)
{
	start(0);
	now.header_revision = revision;
	now.L = L;
	now.extended = 0xC35A;
	settle();
}

/* Refusal 5: what a revision and an L give. */
static uint64_t aim_of(uint64_t revision, uint64_t L)
{
	return revision < 3 || (revision >= 6 && L < 80) ? 5 : 0;
}

/* Refusal 5: revisions about 3 and 6 with L from 72 to 81; the table follows each L. */
void extended_lengths(void)
{
	static const uint64_t revision[] = { 2, 3, 5, 6, 7, 255 };
	for (size_t i = 0; i < COUNT(revision); i++) {
		for (uint64_t L = 72; L < 82; L++) {
			start_revision(revision[i], L);
			plain(aim_of(revision[i], L));
		}
		start_revision(revision[i], 256);
		plain(aim_of(revision[i], 256));
	}
}

/* #102: the two bytes at H+76 alone make the number. */
void extended_values(void)
{
	static const uint64_t revision[] = { 6, 7, 255 };
	static const uint64_t number[] = { 0, 1, 0x80, 0xFF, 0x0100, 0x8000, 0xFF00, 0xFFFF, 0x1234 };
	for (size_t i = 0; i < COUNT(revision); i++) {
		start_revision(revision[i], 80 + 3 * i);
		for (size_t j = 0; j < COUNT(number); j++)
			hit(spot.H + 76, 2, number[j], 0);
		hit(spot.H + 75, 1, 0, 0);
		hit(spot.H + 75, 1, 0xFF, 0);
		hit(spot.H + 78, 2, 0, 0);
		hit(spot.H + 78, 2, 0xFFFF, 0);
	}
}

/* #102: below revision 6 the number is 0, whatever stands at H+76: header, rounding or patch table. */
void extended_unseen(void)
{
	static const uint64_t L[] = { 72, 77, 78, 79, 80, 81, 96 };
	for (uint64_t revision = 3; revision < 6; revision++) {
		for (size_t i = 0; i < COUNT(L); i++) {
			start_revision(revision, L[i]);
			hit(spot.H + 76, 2, 0xFFFF, 0);
			hit(spot.H + 76, 2, 0x0100 << i % 2, 0);
		}
		start_revision(revision, 72);
		hit(spot.H + 10, 1, 6, 0);
		hit(spot.H + 10, 1, 0xFF, 0);
	}
}

/* The image ending with a section of this size. */
static void cut_section(uint64_t S, uint64_t number)
{
	const uint64_t len = spot.f + 24 + S;
	build();
	put(32, 8, len);
	put(spot.f + 20, 3, 24 + S);
	put(spot.f + 24, 3, S);
	put(spot.H + 24, 4, len);
	mend();
	show(len, number, 0);
}

/* Refusals 4, 5 and 9: section and image ending about H+76, H+78 and H+L. */
void extended_edges(void)
{
	static const uint64_t revision[] = { 5, 6, 255 };
	static const uint64_t L[] = { 72, 76, 79, 80, 81 };
	for (size_t i = 0; i < COUNT(revision); i++) {
		for (size_t j = 0; j < COUNT(L); j++) {
			start_revision(revision[i], L[j]);
			for (uint64_t S = 75; S < 87; S++) {
				const bool fits = S >= L[j] + 4 && aim_of(revision[i], L[j]) == 0;
				if (S < L[j] + 6)
					cut_section(S, S < 76 ? 4 : fits ? 9 : 5);
			}
		}
	}
}

/* Refusal 5 by its revision together with each other fault, before or after it. */
void extended_order(void)
{
	static const uint64_t revision[] = { 5, 6, 255 };
	for (size_t i = 0; i < COUNT(revision); i++) {
		for (size_t j = 0; j < RULES; j++) {
			start_revision(revision[i], 79);
			const uint64_t len = build_broken(rule[j]);
			const bool newer = revision[i] >= 6 && rule[j] > 5;
			show(len, newer ? 5 : rule[j], newer ? 0 : broken_index(rule[j]));
		}
		start_revision(revision[i], 80);
		for (size_t j = 4; j < RULES; j++)
			show(build_broken(rule[j]), rule[j], broken_index(rule[j]));
	}
}
