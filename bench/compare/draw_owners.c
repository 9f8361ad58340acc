/* The owner lists of the comparison: right ones, most of them so that the sheet passes, and damaged ones; and who asks. */
#include "drawing.h"

#include "fields.h"

#define MOST_RANGES 64

static uint64_t count;

/* One more range. */
static void add_range(uint64_t offset, uint64_t size, uint64_t owner)
{
	uint8_t *owners = model[OWNERS];
	put_number(owners, 8 * count, 4, offset);
	put_number(owners, 8 * count + 4, 2, size);
	put_number(owners, 8 * count + 6, 2, owner);
	count++;
}

/* Every setting is one owner's. */
static void draw_whole(uint64_t owner)
{
	if (plan.z > 32)
		add_range(32, plan.z - 32, owner);
}

/* Ranges anywhere, most of them one owner's, touching or not. */
static void draw_ranges(uint64_t owner)
{
	uint64_t at = 32;
	while (count < MOST_RANGES) {
		at += below(4) == 0 ? below(6) : 0;
		const uint64_t size = 1 + below(below(3) == 0 ? plan.z : 8);
		if (at + size > plan.z)
			break;
		add_range(at, size, below(5) == 0 ? 3 - owner : owner);
		at += size;
	}
}

/* How many ranges a list of many has, at most as many as there are settings. */
static uint64_t drawn_ranges(void)
{
	static const uint64_t many[] = { 63, 64, 64, 64, 65, 66, 128, 256, 257, 320, 8192, 8193, 8256 };
	const uint64_t n = many[below(sizeof many / sizeof many[0])];
	return n < plan.z - 32 ? n : plan.z - 32 < MOST_RANGES ? plan.z - 32 : MOST_RANGES;
}

/* Many equal ranges, all settings up to some byte; now and then one is the other's. */
static void draw_many(uint64_t owner)
{
	const uint64_t n = drawn_ranges(), other = below(4) == 0 ? below(n + 1) : n;
	for (uint64_t i = 0; i < n; i++) {
		const uint64_t size = i + 1 < n ? (plan.z - 32) / n : plan.z - 32 - i * ((plan.z - 32) / n);
		add_range(32 + i * ((plan.z - 32) / n), size, i == other ? 3 - owner : owner);
	}
}

/* Ranges for one entry, of one piece or two; before it a range of the other's where there is a gap. Gives its end. */
static uint64_t cover_entry(uint64_t owner, uint64_t from, uint64_t offset, uint64_t size)
{
	const uint64_t cut = below(size);
	if (offset > from && below(2) == 0)
		add_range(from, offset - from, 3 - owner);
	if (cut != 0)
		add_range(offset, cut, owner);
	add_range(offset + cut, size - cut, owner);
	return offset + size;
}

/* Just what the sheet sets is the owner's, as far as that can be told; the rest is the other's or nobody's. */
static void draw_for_sheet(uint64_t owner)
{
	const uint8_t *sheet = model[OTHER];
	const uint64_t m = length[OTHER] < 16 ? 0 : get_number(sheet, 12, 2);
	uint64_t end = 32;
	for (uint64_t i = 0; i < m && 24 + 8 * i <= length[OTHER] && count + 3 <= MOST_RANGES; i++) {
		const uint64_t offset = get_number(sheet, 16 + 8 * i, 4), size = get_number(sheet, 20 + 8 * i, 2);
		if (offset < end || size == 0 || offset + size > plan.z)
			break;
		end = cover_entry(owner, end, offset, size);
	}
}

/* A number of a range for another one of its kind: about the rules' edges, or any. */
static uint64_t drawn_part(uint64_t old, unsigned width)
{
	const uint64_t edge[] = { 0, 1, 2, 3, 31, 32, plan.z - 1, plan.z, plan.z + 1, old - 1, old + 1, old + 2,
				  old ^ 0x100, 65535, UINT64_C(0xFFFFFFFF), 0 - old };
	return below(8) == 0 ? drawn_value(old, width) : edge[below(sizeof edge / sizeof edge[0])];
}

/* One range a byte shorter, at its start or at its end; the list stays right where the range isn't of one byte. */
static void cut_range(uint8_t *range)
{
	const uint64_t first = below(2);
	put_number(range, 0, 4, get_number(range, 0, 4) + first);
	put_number(range, 4, 2, get_number(range, 4, 2) - 1);
}

/* Offset, length or owner of one range; or it is cut; or changed over with the first. */
static void damage_range(void)
{
	uint8_t *owners = model[OWNERS], *range = owners + (count == 0 ? 0 : 8 * below(count));
	const uint64_t first = get_number(owners, 0, 8), owner = get_number(range, 6, 2);
	switch (below(7)) {
	case 0: put_number(range, 0, 4, drawn_part(get_number(range, 0, 4), 4)); break;
	case 1: put_number(range, 4, 2, drawn_part(get_number(range, 4, 2), 2)); break;
	case 2: put_number(range, 6, 2, below(2) == 0 ? owner ^ UINT64_C(1) << below(16) : drawn_part(owner, 2)); break;
	case 3:
	case 4: cut_range(range); break;
	case 5: put_number(range, 6, 2, 3 - owner); break;
	default:
		put_number(owners, 0, 8, get_number(range, 0, 8));
		put_number(range, 0, 8, first);
		break;
	}
}

/* One kind of damage to the list; the sheet may still pass. */
static void damage_owners(void)
{
	const uint64_t kind = below(8);
	if (kind < 4)
		damage_range();
	else if (kind == 4)
		add_range(below(4) == 0 ? below(TWO32) : 30 + below(plan.z), 1 + below(3), 1 + below(2));
	length[OWNERS] = (size_t)(8 * count);
	if (kind == 5)
		length[OWNERS] += (size_t)(1 + below(8));
	else if (kind == 6)
		length[OWNERS] = (size_t)below(8 * count + 1);
	else if (kind == 7)
		length[OWNERS] = (size_t)(8 * below(600));
}

/* Who asks: the owner that the list is for, the other one, or any number. */
static uint64_t drawn_caller(uint64_t owner)
{
	switch (below(48)) {
	case 0: return below(5);
	case 1: return owner + (UINT64_C(1) << (8 + below(56)));
	case 2: return any_number();
	case 3:
	case 4: return 3 - owner;
	default: return owner;
	}
}

/* The list for the sheet that has been drawn; gives who asks. */
uint64_t draw_owners(void)
{
	static void (*const kinds[])(uint64_t owner) = { draw_whole, draw_whole, draw_whole, draw_ranges,
							 draw_many, draw_for_sheet, draw_for_sheet, draw_for_sheet };
	const uint64_t owner = 1 + below(2);
	fill_bytes(model[OWNERS], OWNERS_ROOM);
	count = 0;
	kinds[below(sizeof kinds / sizeof kinds[0])](owner);
	length[OWNERS] = (size_t)(8 * count);
	if (below(4) == 0)
		damage_owners();
	return drawn_caller(owner);
}
