/*
 * What stands in any bytes where document 01 looks. Nothing here judges an image: the library has
 * answered before, and these values are shown beside its answer. Each read is held to the file.
 */
#include "letters.h"

#include <string.h>

#include "pajurenda.h"

/* So many bytes stand at a position. */
bool has_bytes(const struct bytes *file, uint64_t at, uint64_t count)
{
	return at <= file->length && count <= file->length - at;
}

/* A number at a position; 0 where the file has no such bytes. */
uint64_t number_at(const struct bytes *file, uint64_t at, size_t width)
{
	return has_bytes(file, at, width) ? pajurenda_number(file->at + at, width) : 0;
}

/* A mark stands at a position. */
bool stands(const struct bytes *file, uint64_t at, const char *mark)
{
	const size_t length = strlen(mark);
	return has_bytes(file, at, length) && memcmp(file->at + at, mark, length) == 0;
}

/* Rounding up to a multiple of a unit. */
static uint64_t round_up(uint64_t value, uint64_t unit)
{
	return (value + unit - 1) / unit * unit;
}

/* The volume, the header file, its section. */
static void look_at_volume(struct letters *w)
{
	w->h = number_at(w->image, 48, 2);
	w->V = number_at(w->image, 32, 8);
	w->x = number_at(w->image, 52, 2);
	w->e = w->x == 0 ? 0 : number_at(w->image, w->x + 16, 4);
	w->f = round_up(w->x == 0 ? w->h : w->x + w->e, 8);
	w->s = number_at(w->image, w->f + 20, 3);
	w->section = number_at(w->image, w->f + 24, 3);
}

/* The FSP header, the patch table, the region. */
static void look_at_tables(struct letters *w)
{
	w->H = w->f + 28;
	w->L = number_at(w->image, w->H + 4, 4);
	w->g = round_up(w->H + w->L, 4);
	w->p = w->g;
	if (stands(w->image, w->g, "FSPE"))
		w->p = round_up(w->g + number_at(w->image, w->g + 4, 4), 4);
	w->n = number_at(w->image, w->p + 8, 4);
	w->E = w->p + 12 + 4 * w->n;
	w->c = number_at(w->image, w->H + 36, 4);
	w->z = number_at(w->image, w->H + 40, 4);
}

/* All of them. */
struct letters letters_of(const struct bytes *image)
{
	struct letters w = { .image = image };
	look_at_volume(&w);
	look_at_tables(&w);
	return w;
}

/* A patch entry, by its index. */
uint64_t entry_at(const struct letters *w, uint64_t index)
{
	return number_at(w->image, w->p + 12 + 4 * index, 4);
}

/*
 * The position a patch entry names in an image of that length, below 0 where it would lie before
 * the start. For showing alone: the library gives no entry's place to C, and has judged them all.
 */
int64_t where_it_points(uint64_t entry, size_t length)
{
	const int64_t low = (int64_t)(entry & 0xFFFFFF);
	return entry >> 31 == 0 ? low : (int64_t)length - (0x1000000 - low);
}
