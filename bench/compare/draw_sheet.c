/* The sheets of the comparison: for an image or by themselves, whole, damaged or of any bytes. */
#include "drawing.h"

#include "fields.h"

#define MOST_SHEET 65600

/* The entries of a sheet, within the region; gives their count. */
static uint64_t draw_entries(uint64_t most)
{
	uint8_t *sheet = model[OTHER];
	uint64_t at = below(24) == 0 ? 30 + below(2) : 32, m = 0;
	for (; m < most; m++) {
		at += most < 256 && below(4) == 0 ? below(8) : 0;
		const uint64_t size = most >= 256 ? 1 : 1 + below(below(16) == 0 ? plan.z : 4);
		if (at + size > plan.z && (m > 8 || below(16) != 0))
			break;
		put_number(sheet, 16 + 8 * m, 4, at);
		put_number(sheet, 20 + 8 * m, 2, size);
		at += size;
	}
	return m;
}

/* The entries of a long sheet that ends at a byte; gives their count. */
static uint64_t draw_long_entries(uint64_t end)
{
	uint8_t *sheet = model[OTHER];
	const uint64_t m = 2 + below(3), bodies = end - 16 - 8 * m;
	for (uint64_t i = 0; i < m; i++) {
		put_number(sheet, 16 + 8 * i, 4, 32 + i);
		put_number(sheet, 20 + 8 * i, 2, i + 1 < m ? 1 : bodies - i);
	}
	return m;
}

/* The bodies' positions, one after the other; gives the end. */
static uint64_t draw_bodies(uint64_t m)
{
	uint8_t *sheet = model[OTHER];
	uint64_t running = 16 + 8 * m;
	for (uint64_t i = 0; i < m; i++) {
		put_number(sheet, 22 + 8 * i, 2, running);
		running += get_number(sheet, 20 + 8 * i, 2);
	}
	fill_bytes(sheet + 16 + 8 * m, running - 16 - 8 * m);
	return running;
}

/* One kind of damage to a sheet. */
static void damage_sheet(uint64_t m)
{
	uint8_t *sheet = model[OTHER];
	const uint64_t at = 16 + 8 * below(m + 1);
	const uint64_t now = length[OTHER];
	switch (below(9)) {
	case 0: length[OTHER] -= (size_t)below(now < 4 ? 1 : 4); break;
	case 1: length[OTHER] += (size_t)(1 + below(3)); break;
	case 2: length[OTHER] = (size_t)below(now + 1); break;
	case 3: put_number(sheet, at, 4, drawn_value(get_number(sheet, at, 4), 4)); break;
	case 4: put_number(sheet, at + 4, 2, drawn_value(get_number(sheet, at + 4, 2), 2)); break;
	case 5: put_number(sheet, at + 6, 2, drawn_value(get_number(sheet, at + 6, 2), 2)); break;
	case 6: sheet[below(16)] ^= (uint8_t)(1 + below(255)); break;
	case 7: put_number(sheet, 12, 2, below(2) == 0 ? 255 + below(3) : m + below(3)); break;
	default: length[OTHER] = (size_t)(65534 + below(4)); break;
	}
}

/* The extended number for a sheet: the image's, now and then one half of it another, none, or what stands at H+76. */
static uint64_t drawn_extended(void)
{
	const uint64_t right = extended_number(&plan);
	switch (below(16)) {
	case 0: return right ^ (1 + below(255));
	case 1: return right ^ (1 + below(255)) << 8;
	case 2: return 0;
	case 3: return plan.H + 78 <= length[IMAGE] ? get_number(model[IMAGE], plan.H + 76, 2) : below(65536);
	default: return right;
	}
}

/* A sheet for the image, whole or damaged; now and then without entries, or with an empty one and the rest right. */
void draw_sheet(void)
{
	uint8_t *sheet = model[OTHER];
	const uint64_t kind = below(32);
	fill_bytes(sheet, MOST_SHEET);
	const uint64_t m = plan.z > 65500 && kind < 24 ? draw_long_entries(65533 + below(4))
		: draw_entries(kind == 0 ? 257 : kind < 3 ? 256 : kind < 6 ? 0 : below(6));
	empty_sheet(sheet, plan.identity, plan.revision, drawn_extended());
	put_number(sheet, 12, 2, m);
	if (m != 0 && below(32) == 0)
		put_number(sheet, 20 + 8 * below(m), 2, 0);
	length[OTHER] = (size_t)draw_bodies(m);
	if (below(8) < 3)
		damage_sheet(m);
}

/* Refusal 15's lengths in turn. */
uint64_t sheet_length(uint64_t turn)
{
	return turn < SHORT_SHEETS ? turn : 65530 + turn - SHORT_SHEETS;
}

/* A sheet of just this length: a short one without entries, a long one right in all but perhaps its length. */
static void draw_length(uint64_t bytes)
{
	uint8_t *sheet = model[OTHER];
	fill_bytes(sheet, MOST_SHEET);
	const uint64_t m = bytes < SHORT_SHEETS ? 0 : draw_long_entries(bytes);
	empty_sheet(sheet, plan.identity, plan.revision, drawn_extended());
	put_number(sheet, 12, 2, m);
	(void)draw_bodies(m);
	length[OTHER] = (size_t)bytes;
}

/* Any bytes, now and then with a small count among them. */
static void draw_any_bytes(void)
{
	fill_bytes(model[OTHER], MOST_SHEET);
	length[OTHER] = (size_t)(below(3) == 0 ? sheet_length(below(SHEET_LENGTHS)) : below(400));
	if (below(2) == 0)
		put_number(model[OTHER], 12, 2, below(3));
}

/* A sheet for no image: as for a release, of a length at refusal 15's edges, or any bytes. */
void draw_lone_sheet(uint64_t turn)
{
	const uint64_t kind = below(8);
	plan_drawn(&plan);
	if (below(4) == 0)
		plan.z = 32 + below(1200);
	if (turn < SHEET_LENGTHS)
		draw_length(sheet_length(turn));
	else if (kind == 0)
		draw_any_bytes();
	else if (kind == 1)
		draw_length(sheet_length(below(SHEET_LENGTHS)));
	else
		draw_sheet();
	if (kind == 2 && turn >= SHEET_LENGTHS)
		length[OTHER] = (size_t)sheet_length(below(SHEET_LENGTHS));
}
