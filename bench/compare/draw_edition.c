/* #109: a drawn image that says it is edition 1, and the edges of rules 4 and 5 for it. */
#include "drawing.h"

#include "fields.h"

/* A number of the image, if it lies inside. */
static void set(uint64_t at, unsigned width, uint64_t value)
{
	if (at + width <= length[IMAGE])
		put_number(model[IMAGE], (size_t)at, width, value);
}

/* The section, and the file with it, about a size; volume and image may end there too. */
static void cut_section(uint64_t size)
{
	const uint64_t end = plan.f + 24 + size;
	if (end > length[IMAGE])
		return;
	set(plan.f + 24, 3, size);
	set(plan.f + 20, 3, 24 + size);
	if (below(2) == 0)
		set(32, 8, end);
	if (below(3) == 0) {
		length[IMAGE] = (size_t)end;
		set(plan.H + 24, 4, end);
		set(32, 8, end);
	}
}

/* c, z, the attributes and all after the header: anything, as nobody judges them. */
static void draw_unjudged(void)
{
	if (below(2) == 0)
		set(plan.H + 32, 4, any_number());
	if (below(2) == 0)
		set(plan.H + 36, 4, below(4) == 0 ? any_number() : below(length[IMAGE] + 1));
	if (below(2) == 0)
		set(plan.H + 40, 4, below(4) == 0 ? any_number() : below(length[IMAGE] + 1));
	if (below(3) == 0 && plan.E < length[IMAGE])
		fill_bytes(model[IMAGE] + plan.H + 44, plan.E - plan.H - 44);
}

/* A revision, a length or a section beside what the two rules want. */
static void draw_beside(void)
{
	static const uint64_t L[] = { 59, 60, 61, 63, 64, 65, 72 };
	static const uint64_t size[] = { 62, 63, 64, 67, 68, 75, 76 };
	switch (below(4)) {
	case 0: set(plan.H + 11, 1, below(4)); break;
	case 1: set(plan.H + 4, 4, L[below(7)]); break;
	case 2: cut_section(size[below(7)]); break;
	default: break;
	}
}

/* The drawn image becomes one of edition 1; mostly right, and then its sums are. */
void turn_older(void)
{
	set(plan.H + 11, 1, 1);
	set(plan.H + 4, 4, below(2) == 0 ? 60 : 64);
	draw_unjudged();
	if (below(4) == 0)
		cut_section(64 + below(16));
	if (below(4) == 0)
		draw_beside();
	mend(&plan, model[IMAGE], length[IMAGE]);
}
