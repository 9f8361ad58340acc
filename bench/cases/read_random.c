/* Reading cases: several rules broken at once, and damage by the fixed sequence. */
#include "read_cases.h"

/* The first rule that applies; bit k of the set is the k-th in the order of judging. */
static void break_all(unsigned set)
{
	unsigned first = 0;
	build();
	for (unsigned k = RULES; k > 0; k--) {
		if ((set >> (k - 1) & 1) != 0) {
			first = rule[k - 1];
			break_rule(first);
		}
	}
	mend();
	show(first == 1 ? 71 : now.length, first, broken_index(first));
}

/* Every pair of rules, all from one on, and sets by the fixed sequence. */
void several_rules(void)
{
	for (unsigned a = 0; a < RULES; a++) {
		start(a % PLANS);
		break_all(1u << a);
		for (unsigned b = a + 1; b < RULES; b++)
			break_all(1u << a | 1u << b);
		break_all(0x7FFFu & ~((1u << a) - 1));
	}
	for (unsigned i = 0; i < 60; i++) {
		if (i % 15 == 0)
			start(i / 15);
		const unsigned set = (unsigned)below(0x8000) & 0x7FFEu;
		break_all(set & (unsigned)below(0x8000));
	}
}

/* Refusals 2 to 10: the image cut off at many lengths, V and the size following or not. */
void cut_lengths(unsigned k)
{
	start(k);
	const uint64_t last = now.c + now.z + 64 + 8 * now.n + 8;
	for (uint64_t len = spot.f + 20; len < last; len += 1 + below(9)) {
		start(k);
		now.V = len;
		if (len % 2 == 0)
			now.length = len;
		build();
		show(len, ANY, 0);
	}
}

/* ---- damage by the fixed sequence ---- */

/* Single bytes below E, in the region's head or in the header. */
void random_bytes(unsigned k)
{
	start(k);
	for (unsigned i = 0; i < 40; i++) {
		const uint64_t from = i % 2 == 0 ? spot.f : 0;
		uint64_t at = from + below(spot.E - from);
		if (i % 7 == 0)
			at = now.c + below(8);
		if (i % 5 == 0)
			at = spot.H + below(44);
		build();
		put(at, 1, below(256));
		if (i % 4 != 0)
			mend();
		show(now.length, ANY, 0);
	}
}

/* Truncation and extension, with the numbers of the length following or not. */
void random_lengths(unsigned k)
{
	start(k);
	for (unsigned i = 0; i < 16; i++) {
		const uint64_t len = i % 2 == 0 ? below(now.length) : now.length + below(SPACE - now.length + 1);
		const struct plan kept = now;
		if (i % 3 != 0) {
			now.V = len > now.V ? now.V : len;
			now.length = len;
		}
		build();
		show(len, ANY, 0);
		now = kept;
	}
}

/* Wholly random short buffers, some with a whole volume header. */
void random_short(void)
{
	start(0);
	for (unsigned i = 0; i < 60; i++) {
		const uint64_t len = i % 2 == 0 ? below(120) : 72 + below(60);
		for (uint64_t at = 0; at < len; at++)
			put(at, 1, below(256));
		if (i % 4 == 1) {
			text(40, "_FVH");
			put(32, 8, len - below(3));
			put(48, 2, 72 + 2 * below(4));
			put(52, 2, i % 8 == 1 ? 0 : 70 + below(30));
			mend_volume();
		}
		show(len, ANY, 0);
	}
}

/* The parts of a plan by the fixed sequence. */
static void random_parts(void)
{
	start(0);
	now.h = 72 + 2 * below(30);
	if (below(2) == 0) {
		now.x = now.h + below(20);
		now.e = 20 + below(40);
	}
	draw_revision();
	if (below(3) == 0)
		now.L = 80 + below(177);
	now.guard = below(2) == 0 ? 24 + below(20) : 0;
	now.n = below(7);
	now.more_section = below(10);
	now.more_file = below(10);
	now.component = 1 + below(4);
	now.low12 = below(4096);
	now.identity = below(UINT64_C(1) << 47) * 131071;
	now.revision = below(TWO32);
	now.table_length = below(65536);
	now.table_reserved = below(256);
	now.before = below(2) == 0;
	now.gap = below(60);
	now.z = 32 + below(60);
}

/* A whole image with every part drawn from the sequence. */
static void random_plan(void)
{
	random_parts();
	settle();
	now.length = now.c + now.z + 64 + 8 * now.n + below(500);
	now.V = spot.f + spot.s + below(now.length - spot.f - spot.s + 1);
	now.base = below((TWO32 - now.length) / 4096 + 1) * 4096;
	settle();
}

/* One number of the image moved a little. */
static void random_nudge(void)
{
	const uint64_t at[][2] = {
		{ 32, 4 }, { 48, 2 }, { 52, 2 }, { spot.f + 20, 3 }, { spot.f + 24, 3 },
		{ spot.H + 4, 4 }, { spot.H + 24, 4 }, { spot.H + 28, 4 }, { spot.H + 34, 2 },
		{ spot.H + 36, 4 }, { spot.H + 40, 4 }, { spot.g + 4, 4 }, { spot.p + 8, 4 },
		{ spot.p + 12, 4 }, { spot.p + 15, 1 }, { spot.H + 36, 4 }, { spot.p + 8, 4 },
		{ spot.H + 11, 1 }, { spot.H + 76, 2 },
	};
	const size_t i = (size_t)below(COUNT(at));
	const uint64_t by = UINT64_C(1) << below(6);
	const uint64_t old = get(at[i][0], at[i][1]);
	put(at[i][0], at[i][1], below(2) == 0 ? old + by : old - by);
}

/* Whole plans by the fixed sequence, and each with one number moved a little. */
void random_plans(void)
{
	for (unsigned i = 0; i < 100; i++) {
		random_plan();
		plain(0);
		random_nudge();
		mend();
		show(now.length, ANY, 0);
	}
}

/* Refusals 12 to 14 and 22: crowded words about the region, seldom one of another type, turned or outside. */
void random_crowd(unsigned k)
{
	start(k);
	now.n = 12;
	settle();
	for (unsigned i = 0; i < 50; i++) {
		const uint64_t from = i % 2 == 0 ? spot.E - 1 : now.c + now.z - 2;
		for (uint64_t j = 0; j < now.n; j++) {
			const uint64_t far = i % 3 == 0 ? now.length - 260 : from;
			const uint64_t place = far + (far == from && i % 2 == 0 ? below(64) : below(260));
			const uint64_t type = below(60) == 0 ? below(16) : 15 * below(2);
			const bool back = below(2) == 0;
			const uint64_t bits = below(60) == 0 ? below(8) : 0;
			if (j == 0 || i % 2 == 1 || below(4) == 0)
				now.entry[j] = reserved(word(place, back, type), bits);
		}
		build();
		show(now.length, ANY, 0);
		settle();
	}
}
