/* What an audit gets besides the vendor image: the shipped file and the places. */
#include "drawing.h"

#include <string.h>

#include "fields.h"
#include "../second/second.h"

/* The shipped file's bytes changed: a few anywhere, in the region, in words, or a whole stretch. */
static void change_shipped(void)
{
	uint8_t *shipped = model[OTHER];
	const uint64_t size = length[OTHER], kind = below(6);
	if (size == 0)
		return;
	if (kind == 0) {
		const uint64_t from = below(size), most = size > 4194304 && below(4) != 0 ? 65536 : size;
		fill_bytes(shipped + from, below((size - from < most ? size - from : most) + 1));
		return;
	}
	for (uint64_t i = below(7); i > 0; i--) {
		uint64_t at = kind < 3 ? plan.c + below(plan.z) : below(size);
		if (kind == 5 && plan.n != 0)
			at = plan.place[below(plan.n)] + below(4);
		if (kind == 4 && plan.cover.M != NOWHERE)
			at = plan.cover.M + below(plan.inside.size);
		if (at < size)
			shipped[at] ^= (uint8_t)(1 + below(255));
	}
}

/* The places lent: as many as differences, fewer, more, none, and bytes over. */
static void draw_places(void)
{
	const struct second_audited a = second_audit(model[IMAGE], length[IMAGE], model[OTHER],
						     length[OTHER], list, 0);
	const uint64_t count = a.settings + a.strays;
	uint64_t places = below(8);
	if (count != 0 || below(2) == 0)
		places = below(3) == 0 ? count + below(9) : count;
	if (count != 0 && below(4) == 0)
		places = below(2) == 0 ? count - 1 : below(count);
	length[PLACES] = (size_t)(4 * places + below(4));
	fill_bytes(model[PLACES], length[PLACES]);
}

/* The shipped file moved, where it is an image that reads; of edition 1 the base word alone, as nothing moves. */
static void move_shipped(uint64_t base)
{
	uint8_t empty[EMPTY_SHEET];
	const struct second_reading r = second_read(model[OTHER], length[OTHER]);
	if (r.number == 0 && r.component == 0)
		put_number(model[OTHER], (size_t)(r.H + 28), 4, base);
	empty_sheet(empty, r.image_identity, r.revision, r.extended);
	(void)second_release(model[OTHER], length[OTHER], empty, EMPTY_SHEET, base, empty, 0, 1);
}

/* The shipped file: the image moved, changed, of another length or another base word. */
void draw_shipped(void)
{
	memcpy(model[OTHER], model[IMAGE], length[IMAGE]);
	if (length[IMAGE] < IMAGE_ROOM)
		model[OTHER][length[IMAGE]] = (uint8_t)below(256);
	length[OTHER] = length[IMAGE];
	if (below(2) == 0)
		move_shipped(drawn_base(plan.length));
	if (below(4) != 0)
		change_shipped();
	if (below(12) == 0 && plan.H + 32 <= length[OTHER])
		put_number(model[OTHER], plan.H + 28, 4, drawn_value(plan.base, 4));
	if (below(16) == 0)
		length[OTHER] = below(2) == 0 && length[OTHER] < IMAGE_ROOM ? length[OTHER] + 1
			: (size_t)below(length[OTHER] + 1);
	draw_places();
}
