/* What a list of contents gets besides the image: the places. */
#include "drawing.h"

#include "fields.h"
#include "../second/second.h"

/* The places lent: as many as the list has entries, fewer, more, none, and bytes over. */
void draw_list(void)
{
	const uint64_t modules = second_modules(model[IMAGE], length[IMAGE], NULL, 0);
	const uint64_t count = second_words(model[IMAGE], length[IMAGE], NULL, 0) + 2 * modules;
	uint64_t places = below(3) == 0 ? count + below(9) : count;
	if (count != 0 && below(4) == 0)
		places = below(2) == 0 ? count - 1 : below(count);
	length[PLACES] = (size_t)(4 * places + below(4));
	fill_bytes(model[PLACES], length[PLACES]);
}
