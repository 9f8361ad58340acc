/* Piles of sheets: each sheet after its length, entries and bodies as document 01 has them. */
#include "fold_piles.h"

#include <stdio.h>
#include <stdlib.h>

#include "fields.h"
#include "images.h"

void clear_pile(struct pile *pile)
{
	pile->length = 0;
	pile->identity = UINT64_C(0x31302D5441455254);
	pile->revision = 0x01020304;
	pile->extended = 0x0506;
}

/* Room for so many bytes more, or the end. */
static void want_room(const struct pile *pile, uint64_t bytes)
{
	if (bytes <= pile->room - pile->length)
		return;
	puts("a pile that is longer than its room");
	exit(2);
}

void begin_sheet(struct pile *pile, uint64_t entries)
{
	want_room(pile, 20 + 8 * entries);
	pile->sheet = pile->length + 4;
	pile->count = 0;
	pile->length = pile->sheet + 16 + 8 * (size_t)entries;
	empty_sheet(pile->at + pile->sheet, pile->identity, pile->revision, pile->extended);
	put_number(pile->at, pile->sheet + 12, 2, entries);
	put_number(pile->at, pile->sheet - 4, 4, pile->length - pile->sheet);
}

void add_run(struct pile *pile, uint64_t offset, uint64_t length)
{
	const size_t at = pile->sheet + 16 + 8 * (size_t)pile->count++;
	want_room(pile, length);
	put_number(pile->at, at, 4, offset);
	put_number(pile->at, at + 4, 2, length);
	put_number(pile->at, at + 6, 2, pile->length - pile->sheet);
	fill_bytes(pile->at + pile->length, length);
	pile->length += (size_t)length;
	put_number(pile->at, pile->sheet - 4, 4, pile->length - pile->sheet);
}

void add_sheet(struct pile *pile, uint64_t offset, uint64_t length)
{
	begin_sheet(pile, 1);
	add_run(pile, offset, length);
}

void draw_pile_sheet(struct pile *pile, uint64_t entries, uint64_t bytes, uint64_t low, uint64_t high)
{
	uint64_t offset[256], length[256], m = 0, at = low;
	const uint64_t step = (high - low) / entries + 1;
	for (; m < entries; m++) {
		at += below(3) == 0 ? 0 : below(2 * step);
		length[m] = 1 + below(bytes);
		if (at + length[m] > high)
			break;
		offset[m] = at;
		at += length[m];
	}
	begin_sheet(pile, m);
	for (uint64_t i = 0; i < m; i++)
		add_run(pile, offset[i], length[i]);
}
