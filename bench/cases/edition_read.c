/* Reading cases of #109: rules 4 and 5 for both editions, and all that isn't judged of edition 1. */
#include "edition_cases.h"
#include "read_plans.h"

/* The planned image, read. */
static void read_older(uint64_t number)
{
	edition_build();
	show(older.length, number, 0);
}

/* Rule 5's two rules; an image of edition 2 that passes them has no component here. */
static uint64_t header_aim(uint64_t revision, uint64_t L, uint64_t section)
{
	if (4 + L > section)
		return 5;
	if (revision == OLDER)
		return L == SHORT_L || L == LONG_L ? 0 : 5;
	return revision < 3 || L < 72 || L > 256 || (revision >= 6 && L < 80) ? 5 : 7;
}

/* What a section's size, a revision and a header's length give. */
static uint64_t aim_of(uint64_t section, uint64_t revision, uint64_t L)
{
	if (section < 64 || (section < 76 && revision != OLDER))
		return 4;
	return header_aim(revision, L, section);
}

/* An image of these three, right in all else, with component 0. */
static void read_with(uint64_t section, uint64_t revision, uint64_t L)
{
	edition_start(section, L);
	older.revision = revision;
	older.attributes = 0x0FFF0007;
	read_older(aim_of(section, revision, L));
}

/* Refusals 4 and 5: each bound with those beside it. */
static void edition_bounds(void)
{
	static const uint64_t section[] = { 63, 64, 65, 67, 68, 75, 76, 77, 84, 85 };
	static const uint64_t revision[] = { 0, 1, 2, 3, 6, 255 };
	static const uint64_t L[] = { 59, 60, 61, 63, 64, 65, 71, 72, 80 };
	for (size_t i = 0; i < COUNT(section); i++)
		for (size_t j = 0; j < COUNT(revision); j++)
			for (size_t k = 0; k < COUNT(L); k++)
				read_with(section[i], revision[j], L[k]);
}

/* Refusals 4 and 5: every length about the two, lengths that would come round, every revision byte. */
static void edition_lengths(void)
{
	static const uint64_t L[] = { 0, 1, 4, 128, 256, 257, 0x13C, 0x1003C, 0x8000003C, 0xFFFFFFFC, 0xFFFFFFFF, 0x3C000000 };
	for (uint64_t length = 50; length < 80; length++)
		read_with(300, OLDER, length);
	for (size_t i = 0; i < COUNT(L); i++)
		read_with(300, OLDER, L[i]);
	for (uint64_t revision = 0; revision < 256; revision += revision > 16 ? 7u : 1u) {
		read_with(64, revision, 60);
		read_with(76, revision, 64);
	}
}

/* Refusal 4: type and place of the section, the revision byte in the file or not. */
static void edition_sections(void)
{
	edition_start(64, SHORT_L);
	older.section = 65;
	read_older(4);
	older.section = 0xFFFFFF;
	read_older(4);
	edition_start(4, SHORT_L);
	read_older(4);
	edition_start(15, SHORT_L);
	read_older(4);
	edition_start(16, SHORT_L);
	read_older(4);
	edition_start(64, SHORT_L);
	edition_build();
	for (uint64_t bit = 0; bit < 8; bit++) {
		put(spot.f + 27, 1, UINT64_C(0x19) ^ UINT64_C(1) << bit);
		show(older.length, 4, 0);
	}
	put(spot.f + 27, 1, HOLDS_RAW);
	put(spot.H + 10, 1, 0xFF);
	show(older.length, 0, 0);
	put(spot.H + 10, 1, 1);
	put(spot.H + 11, 1, 0);
	show(older.length, 4, 0);
}

/* An accepted reading's c and z, whatever they are, and the attributes; none is judged. */
static void edition_values(uint64_t section, uint64_t L)
{
	static const uint64_t value[] = { 0, 1, 31, 32, 0x94, 0xA0, 65536, 65537, 0x01000000, 0x80000000, 0xFFFFFFF0, 0xFFFFFFFF };
	edition_start(section, L);
	for (size_t i = 0; i < COUNT(value); i++) {
		older.c = value[i];
		older.z = value[COUNT(value) - 1 - i];
		read_older(0);
		older.z = value[i];
		read_older(0);
	}
	for (uint64_t top = 0; top < 16; top++) {
		older.attributes = top << 28 | below(0x10000000);
		read_older(0);
	}
}

/* Bytes after the header, and those of it that no rule speaks of: any. */
static void edition_anything(uint64_t section, uint64_t L)
{
	edition_start(section, L);
	for (unsigned i = 0; i < 12; i++) {
		edition_build();
		for (uint64_t at = spot.H + (i % 2 == 0 ? 44 : L); at < older.length; at++)
			put(at, 1, below(256));
		put(spot.H + 8, 3, below(TWO24));
		put(spot.H + 32, 8, below(TWO32) << 32 | below(TWO32));
		show(older.length, 0, 0);
	}
}

/* Refusals 6 and 8, in this order: size and base are judged for both editions. */
static void edition_numbers(void)
{
	static const uint64_t length[] = { 4095, 4096, 4097, 8192 };
	for (uint64_t bit = 0; bit < 12; bit++) {
		edition_start(64 + bit, SHORT_L);
		older.base ^= UINT64_C(1) << bit;
		read_older(8);
		older.size ^= UINT64_C(1) << 2 * bit;
		read_older(6);
	}
	for (size_t i = 0; i < COUNT(length); i++) {
		edition_start(100, LONG_L);
		edition_end(length[i]);
		older.base = 0xFFFFF000;
		read_older(length[i] > 4096 ? 8 : 0);
		older.base = 0xFFFFE000;
		read_older(0);
		older.base = 0;
		read_older(0);
		older.base = 0xFFFFFFFF;
		read_older(8);
	}
}

/* A rule that is judged of edition 1. */
static bool judged(unsigned number)
{
	return number <= 6 || number == 8;
}

/* Each fault of edition 2 in an image that says edition 1, then all from 7 on at once: only 1 to 6 and 8 are judged. */
static void edition_faults(unsigned k, uint64_t L)
{
	start(k);
	for (size_t i = 0; i < RULES; i++) {
		const uint64_t len = build_broken(rule[i]);
		edition_turn(L);
		show(len, judged(rule[i]) ? rule[i] : 0, 0);
	}
	build();
	for (size_t i = 0; i < RULES; i++)
		if (!judged(rule[i]))
			break_rule(rule[i]);
	edition_turn(L);
	show(now.length, 0, 0);
	edition_turn(62);
	show(now.length, 5, 0);
}

/* The image cut off at every length about its header, V and size following or not. */
static void edition_cut(uint64_t L)
{
	for (uint64_t length = VOLUME_HEADER - 1; length <= VOLUME_HEADER + FILE_HEADER + 70; length++) {
		edition_start(70, L);
		older.V = length;
		if (length % 3 != 0)
			older.size = length;
		edition_build();
		show(length, ANY, 0);
		put(32, 8, older.length);
		mend();
		show(length, ANY, 0);
	}
}

/* Single bytes by the fixed sequence, the sums made right again or not. */
static void edition_random(unsigned count)
{
	for (unsigned i = 0; i < count; i++) {
		edition_start(64 + below(30), i % 2 == 0 ? SHORT_L : LONG_L);
		edition_build();
		for (uint64_t more = 1 + below(2); more > 0; more--)
			put(i % 3 == 0 ? below(older.length) : spot.f + 16 + below(44), 1, below(256));
		if (i % 4 != 0)
			mend();
		show(older.length, ANY, 0);
	}
}

/* #109's share of the read part. */
void read_editions(void)
{
	edition_bounds();
	edition_lengths();
	edition_sections();
	edition_values(64, SHORT_L);
	edition_values(68, LONG_L);
	edition_values(75, SHORT_L);
	edition_anything(64, SHORT_L);
	edition_anything(68, LONG_L);
	edition_anything(300, SHORT_L);
	edition_numbers();
	for (unsigned k = 0; k < PLANS; k++)
		edition_faults(k, k % 2 == 0 ? SHORT_L : LONG_L);
	edition_cut(SHORT_L);
	edition_cut(LONG_L);
	edition_random(200);
}
