/* The images of the comparison: drawn, then whole or damaged, of any length. */
#include "drawing.h"

#include <stdbool.h>

#include "fields.h"

const uint64_t edge_length[EDGES] = { 0, 71, 72, TWO24 - 1, TWO24, TWO24 + 1 };

/* A value near the old one, at an edge, or any. */
uint64_t drawn_value(uint64_t old, unsigned width)
{
	switch (below(8)) {
	case 0: return old + below(9);
	case 1: return old - below(9);
	case 2: return any_number();
	case 3: return 0;
	case 4: return UINT64_MAX;
	case 5: return length[IMAGE] - 8 + below(16);
	case 6: return old ^ UINT64_C(1) << below(8 * width);
	default: return below(256);
	}
}

/* A number of the image, if it lies inside, replaced by a drawn one. */
static void damage_number(uint64_t at, unsigned width)
{
	uint8_t *image = model[IMAGE];
	if (at + width <= length[IMAGE])
		put_number(image, at, width, drawn_value(get_number(image, at, width), width));
}

/* One field of the headers. */
static void damage_field(void)
{
	const uint64_t f = plan.f, H = plan.H, g = plan.g, p = plan.p, c = plan.c;
	const struct { uint64_t at; unsigned width; } fields[] = {
		{ 32, 8 }, { 40, 4 }, { 48, 2 }, { 50, 2 }, { 52, 2 }, { plan.x + 16, 4 },
		{ f + below(16), 1 }, { f + 16, 1 }, { f + 17, 1 }, { f + 19, 1 }, { f + 20, 3 },
		{ f + 23, 1 }, { f + 24, 3 }, { f + 27, 1 }, { H, 4 }, { H + 4, 4 }, { H + 11, 1 },
		{ H + 12, 4 }, { H + 16, 8 }, { H + 24, 4 }, { H + 28, 4 }, { H + 34, 2 },
		{ H + 36, 4 }, { H + 40, 4 }, { H + 76, 2 }, { g, 4 }, { g + 4, 4 }, { p, 4 }, { p + 4, 2 },
		{ p + 6, 1 }, { p + 8, 4 }, { c + 6, 1 }, { c + 7, 1 },
	};
	const uint64_t i = below(sizeof fields / sizeof fields[0]);
	damage_number(fields[i].at, fields[i].width);
}

/* One field at, just below or just above the edge a rule draws for it. */
static void damage_edge(void)
{
	const uint64_t f = plan.f, H = plan.H, in = plan.f + 24;
	const struct { uint64_t at; unsigned width; uint64_t edge; } fields[] = {
		{ 32, 8, plan.x + 20 }, { 32, 8, plan.x + plan.e }, { 32, 8, f + 24 },
		{ 32, 8, f + plan.s }, { 32, 8, length[IMAGE] }, { 48, 2, 72 },
		{ 52, 2, plan.h }, { plan.x + 16, 4, plan.V - plan.x }, { plan.x + 16, 4, 20 },
		{ f + 20, 3, 28 }, { f + 20, 3, plan.V - f }, { f + 20, 3, 24 + plan.S },
		{ in, 3, 76 }, { in, 3, 64 }, { H + 4, 4, 60 }, { H + 4, 4, 64 }, { H + 11, 1, 1 }, { in, 3, 4 + plan.L }, { in, 3, plan.g + 4 - in },
		{ in, 3, plan.g + 8 - in }, { in, 3, plan.p + 12 - in }, { in, 3, plan.E - in },
		{ in, 3, plan.s - 24 }, { H + 4, 4, 72 }, { H + 4, 4, 256 },
		{ H + 4, 4, plan.S - 4 }, { H + 4, 4, 80 }, { H + 11, 1, 3 }, { H + 11, 1, 6 }, { H + 24, 4, length[IMAGE] },
		{ H + 28, 4, TWO32 - plan.length }, { H + 36, 4, plan.E },
		{ H + 36, 4, plan.length - plan.z }, { H + 40, 4, 32 }, { H + 40, 4, 65536 },
		{ H + 40, 4, plan.length - plan.c }, { plan.g + 4, 4, 24 },
		{ plan.g + 4, 4, in + plan.S - plan.g }, { plan.p + 8, 4, 1024 },
	};
	const uint64_t i = below(sizeof fields / sizeof fields[0]);
	if (fields[i].at + fields[i].width <= length[IMAGE])
		put_number(model[IMAGE], fields[i].at, fields[i].width, fields[i].edge + below(3) - 1);
}

/* A place at one of the edges an entry may not cross, or of another entry. */
static uint64_t drawn_place(void)
{
	const uint64_t near = below(11);
	switch (below(9)) {
	case 0: return plan.E + near - 5;
	case 1: return plan.c + near - 5;
	case 2: return plan.c + plan.z + near - 5;
	case 3: return plan.length + near - 7;
	case 4: return plan.place[below(plan.n)] + near - 5;
	case 5: return near;
	case 6: return plan.cover.files == 0 ? near : plan.cover.file[below(plan.cover.files)].at + near - 5;
	case 7: return plan.cover.M == NOWHERE ? plan.cover.free + near - 5 : plan.cover.M + below(plan.inside.size);
	default: return below(TWO24);
	}
}

/* One entry of the patch table. */
static void damage_entry(void)
{
	if (plan.n == 0)
		return;
	const uint64_t at = plan.p + 12 + 4 * below(plan.n), place = drawn_place();
	const uint64_t type = below(4) == 0 ? below(16) : below(2) * 15;
	const uint64_t low = below(2) == 0 ? place % TWO24
		: UINT64_C(0xF0000000) | (TWO24 - plan.length + place) % TWO24;
	const uint64_t turned = below(6) == 0 ? below(8) << 28 : 0;
	if (at + 4 <= length[IMAGE])
		put_number(model[IMAGE], at, 4, (low | type << 24) ^ turned);
}

/* Some of bits 31..24 of a few entries, which else stay right. */
static void damage_top(void)
{
	for (uint64_t i = below(3); i < 3 && plan.n != 0; i++) {
		const uint64_t at = plan.p + 15 + 4 * below(plan.n);
		if (at < length[IMAGE])
			model[IMAGE][at] ^= (uint8_t)(below(8) == 0 ? below(256) : below(8) << 4);
	}
}

/* A component or a base word that is no legal one, or another legal one. */
static void damage_kind(void)
{
	const uint64_t H = plan.H;
	if (H + 36 > length[IMAGE])
		return;
	if (below(2) == 0)
		put_number(model[IMAGE], H + 34, 2, below(65536));
	else
		put_number(model[IMAGE], H + 28, 4,
			   drawn_base(plan.length) + (UINT64_C(1) << below(13)));
}

/* A few bytes of the tables, or of the whole image. */
static void damage_bytes(void)
{
	const uint64_t reach = below(2) == 0 || plan.c > length[IMAGE] ? length[IMAGE] : plan.c;
	for (uint64_t i = below(4) + 1; i > 0 && reach > 0; i--)
		model[IMAGE][below(reach)] ^= (uint8_t)(1 + below(255));
}

/* Bytes lost or added at the end; the header may say so. */
static void damage_length(void)
{
	const uint64_t change = below(4) == 0 ? below(length[IMAGE] + 1) : below(12);
	if (below(2) == 0 && change <= length[IMAGE]) {
		length[IMAGE] -= (size_t)change;
	} else if (change <= IMAGE_ROOM - length[IMAGE]) {
		fill_bytes(model[IMAGE] + length[IMAGE], change);
		length[IMAGE] += (size_t)change;
	}
	if (below(2) == 0 && plan.H + 28 <= length[IMAGE])
		put_number(model[IMAGE], plan.H + 24, 4, length[IMAGE]);
}

/* None, one or two kinds of damage; the sums mostly made right again. */
static void damage_image(void)
{
	static void (*const damage[])(void) = { damage_field, damage_edge, damage_edge,
						damage_entry, damage_entry, damage_top,
						damage_bytes, damage_length, damage_kind,
						damage_file, damage_free, damage_module,
						damage_module, damage_row, damage_block,
						damage_block, damage_block };
	uint64_t count = below(2) == 0 ? 0 : 1 + below(2);
	if (count == 0)
		return;
	for (; count > 0; count--)
		damage[below(sizeof damage / sizeof damage[0])]();
	if (below(4) != 0)
		mend(&plan, model[IMAGE], length[IMAGE]);
}

/* How long an image is to be: mostly short, some of 1 to 16 MiB. */
static uint64_t drawn_length(void)
{
	const uint64_t kind = below(800);
	if (kind == 0)
		return TWO24 - below(2) * below(3);
	if (kind <= 2)
		return (UINT64_C(1) << 20) + below(TWO24 - (UINT64_C(1) << 20));
	return kind < 20 ? below(65536) : below(2) * below(600);
}

/* An image of a drawn plan, of at least a length; right in every part, or with a drawn FSPE. */
static void build_image(uint64_t at_least, bool right)
{
	plan_drawn(&plan);
	if (right && plan.guard < 24)
		plan.guard = 0;
	if (right && plan.header_revision >= 6 && plan.L < 80)
		plan.L = 80;
	lay_out(&plan, at_least);
	plan.base = drawn_base(plan.length);
	length[IMAGE] = (size_t)plan.length;
	fill_bytes(model[IMAGE], plan.length + 16);
	build(&plan, model[IMAGE]);
}

/* The image of a call: whole, damaged, short or of any bytes. */
void draw_image(void)
{
	build_image(drawn_length(), false);
	if (below(6) == 0)
		turn_older();
	const uint64_t kind = below(40);
	if (kind == 0)
		length[IMAGE] = (size_t)below(120);
	else if (kind == 1)
		fill_bytes(model[IMAGE], length[IMAGE]);
	else
		damage_image();
}

/* An image of a length at an edge, right in all else where it is long enough. */
void draw_edge(enum edge edge)
{
	build_image(edge_length[edge], true);
	length[IMAGE] = (size_t)edge_length[edge];
}
