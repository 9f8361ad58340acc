/* The files after the header file, laid around region and patch words. */
#include "cover.h"

#include <string.h>

#include "files.h"

/* No byte of from..to-1 is one of the region's or of a patch word's. */
static bool clear(const struct cover *k, uint64_t from, uint64_t to)
{
	if (from >= to)
		return true;
	if (from < k->c + k->z && k->c < to)
		return false;
	for (uint64_t i = 0; i < k->words; i++)
		if (from < k->place[i] + 4 && k->place[i] < to)
			return false;
	return true;
}

/* The first place for a file of so many bytes at least, with its header clear; all of it where it is to be whole. */
static uint64_t next_place(const struct cover *k, uint64_t from, uint64_t size, uint64_t clear_bytes)
{
	for (uint64_t at = upto8(from); at + size <= k->V; at += 8)
		if (clear(k, at, at + clear_bytes))
			return at;
	return NOWHERE;
}

/* The last place before the region for its file, or NOWHERE. */
static uint64_t place_before(const struct cover *k, uint64_t from)
{
	const uint64_t head = FILE_HEADER + (k->section ? SECTION_HEADER : 0);
	if (k->c < from + head || k->c + k->z > k->V)
		return NOWHERE;
	for (uint64_t at = (k->c - head) / 8 * 8; at >= from; at -= 8)
		if (clear(k, at, at + head))
			return at;
	return NOWHERE;
}

/* The end of the last protected byte below V. */
static uint64_t last_end(const struct cover *k)
{
	uint64_t end = k->c < k->V ? k->c + k->z : 0;
	for (uint64_t i = 0; i < k->words; i++)
		if (k->place[i] < k->V && k->place[i] + 4 > end)
			end = k->place[i] + 4;
	return end < k->V ? end : k->V;
}

/* One more file from a place on; it ends where the next one begins. */
static void begin(struct cover *k, uint64_t at, unsigned type, bool section)
{
	if (k->files > 0)
		k->file[k->files - 1].end = at;
	k->file[k->files++] = (struct covering){ .at = at, .end = k->V, .type = type, .section = section };
}

/* Where the header file ends: as planned, or later where the bytes after it can't be a header. */
static uint64_t lay_first(struct cover *k)
{
	const uint64_t at = upto8(k->from), first = next_place(k, at, FILE_HEADER, FILE_HEADER);
	k->end = k->from;
	if (at >= k->V)
		return NOWHERE;
	if (first == NOWHERE && clear(k, at, k->V))
		k->free = at;
	else if (first != at)
		k->end = first == NOWHERE ? k->V : first;
	return first;
}

/* The region's file, with one before it where there is room, and one after it where words or bytes follow; gives the last's place. */
static uint64_t lay_region(struct cover *k, uint64_t first)
{
	const uint64_t before = place_before(k, first);
	uint64_t last = first;
	if (before != NOWHERE && before >= first + FILE_HEADER) {
		begin(k, first, clear(k, first, before) ? TYPE_PAD : TYPE_RAW, false);
		last = before;
	}
	begin(k, last, TYPE_RAW, before == last && k->section);
	const uint64_t after = k->c >= k->V ? NOWHERE : next_place(k, k->c + k->z, FILE_HEADER, FILE_HEADER);
	if (after == NOWHERE || after < last + FILE_HEADER)
		return last;
	begin(k, after, TYPE_RAW, false);
	return after;
}

/* The module's file: the first place that is clear as a whole, with a header's place or nothing but free bytes after it. */
static uint64_t lay_module(struct cover *k, uint64_t last)
{
	uint64_t at = k->module == 0 ? NOWHERE : next_place(k, last + FILE_HEADER, k->module, k->module);
	while (at != NOWHERE) {
		const uint64_t end = upto8(at + k->module);
		if (clear(k, end, k->V) || (end + FILE_HEADER <= k->V && clear(k, end, end + FILE_HEADER)))
			break;
		at = next_place(k, at + 8, k->module, k->module);
	}
	if (at == NOWHERE)
		return last;
	const uint64_t next = upto8(at + k->module);
	const bool more = !clear(k, next, k->V) || (k->filled && next + FILE_HEADER <= k->V);
	k->M = at;
	begin(k, at, TYPE_PEIM, false);
	if (more)
		begin(k, next, TYPE_RAW, false);
	k->file[k->files - (more ? 2 : 1)].end = at + k->module;
	return more ? next : at;
}

/* Where the last file ends: at the volume's end, or so that a free end is left. */
static void lay_end(struct cover *k, uint64_t last)
{
	struct covering *file = &k->file[k->files - 1];
	uint64_t end = upto8(last_end(k));
	if (last == k->M)
		end = file->end;
	if (end < last + FILE_HEADER)
		end = last + FILE_HEADER;
	if (last != k->M && k->filled)
		end = k->V;
	file->end = end < k->V ? end : k->V;
	k->free = end < k->V ? upto8(end) : k->V;
}

/* All of it; nothing where the header file reaches V. */
void lay_cover(struct cover *k)
{
	k->files = 0;
	k->M = NOWHERE;
	k->free = k->V;
	const uint64_t first = lay_first(k);
	if (first == NOWHERE)
		return;
	lay_end(k, lay_module(k, lay_region(k, first)));
}

/* A file's header, and that of its section. */
static void make_covering(const struct covering *file, uint8_t *image, uint64_t name)
{
	const uint64_t size = file->end - file->at;
	const unsigned type = file->section ? TYPE_FREEFORM : file->type;
	make_file(image, file->at, size, type, type == TYPE_PAD ? NAME_PAD : name);
	if (file->section)
		make_section(image, file->at + FILE_HEADER, size - FILE_HEADER, HOLDS_RAW);
	if (type == TYPE_PAD)
		memset(image + file->at + FILE_HEADER, 0xFF, size - FILE_HEADER);
}

/* The headers, pad files' bytes and the free end. */
void make_cover(const struct cover *k, uint8_t *image)
{
	for (unsigned i = 0; i < k->files; i++)
		if (k->file[i].at != k->M)
			make_covering(&k->file[i], image, 16 + i);
	if (k->free < k->V)
		memset(image + k->free, 0xFF, k->V - k->free);
}
