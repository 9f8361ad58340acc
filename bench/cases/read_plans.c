/* What the read part starts from: the four plans, and the ways to show one. */
#include "read_plans.h"

/* Four plans the damage is done to, one for each component. */
void start(unsigned k)
{
	start_small();
	now.component = k + 1;
	if (k == 1) {
		now.length = 12293, now.V = 12000, now.h = 96, now.x = 101, now.e = 37;
		now.L = 77, now.guard = 27, now.n = 4, now.gap = 67, now.z = 100;
		now.header_revision = 5;
		now.more_section = 5, now.more_file = 9, now.low12 = 0x123;
	} else if (k == 2) {
		now.length = SPACE, now.V = SPACE, now.h = 65534;
		now.L = 256, now.guard = 24, now.n = 16, now.z = 32;
		now.base = 0x00100000, now.header_revision = 7, now.extended = 0xBE01;
	} else if (k == 3) {
		now.length = 4096, now.V = 4000, now.x = 72, now.e = 20;
		now.L = 255, now.guard = 100, now.gap = 66, now.z = 333;
		now.more_section = 16, now.base = 0xFFFFF000, now.low12 = 0xFFF;
		now.header_revision = 6, now.extended = 0x017F;
	}
	settle();
}

/* ---- ways to show ---- */

/* The planned image as it is. */
void plain(uint64_t number)
{
	build();
	show(now.length, number, 0);
}

/* The planned image, laid out anew. */
void anew(uint64_t number)
{
	settle();
	plain(number);
}

/* One number damaged, the sums made right again. */
void hit(uint64_t at, uint64_t width, uint64_t value, uint64_t number)
{
	build();
	put(at, width, value);
	mend();
	show(now.length, number, 0);
}

/* One number damaged, the sums left as they were. */
void raw(uint64_t at, uint64_t width, uint64_t value, uint64_t number)
{
	build();
	put(at, width, value);
	show(now.length, number, 0);
}

/* One byte turned by a mask, the sums made right again. */
void turn(uint64_t at, uint64_t mask, uint64_t number)
{
	build();
	put(at, 1, get(at, 1) ^ mask);
	mend();
	show(now.length, number, 0);
}

/* One byte turned by a mask, the sums left as they were. */
void turn_raw(uint64_t at, uint64_t mask, uint64_t number)
{
	build();
	put(at, 1, get(at, 1) ^ mask);
	show(now.length, number, 0);
}

/* One entry replaced; the files are laid for it. */
void entry(uint64_t k, uint64_t value, uint64_t number)
{
	const uint64_t kept = now.entry[k];
	now.entry[k] = value;
	build();
	show(now.length, number, number == 22 || (number >= 12 && number <= 14) ? k : 0);
	now.entry[k] = kept;
}
