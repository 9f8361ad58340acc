/* The drafting of a volume file by file. */
#include "module_volume.h"

#include <string.h>

/* The next byte, the open file, where the entries are to point. */
static uint64_t at, open_file, pointed[MOST];

uint64_t region_file, free_from;

/* #107: the header file stands, with room for n entries; the next file comes after it. */
void volume_start(uint64_t n)
{
	start_small();
	now.module = 0;
	now.n = n;
	now.fill = 65536;
	lay_out();
	put_background();
	at = spot.f + spot.s;
}

/* A file's header at the next multiple of 8; its size is written at its end. */
uint64_t file_start(unsigned type)
{
	open_file = upto8(at);
	at = open_file + FILE_HEADER;
	make_file(image, open_file, 0, type, type == TYPE_PAD ? NAME_PAD : 32 + open_file);
	return open_file;
}

void file_end(void)
{
	put(open_file + 20, 3, at - open_file);
	sum_file(image, open_file);
}

/* So many bytes; gives the first one's place. */
uint64_t room(uint64_t bytes)
{
	at += bytes;
	return at - bytes;
}

/* A section at the next multiple of 4; gives its header's place. */
uint64_t section_add(unsigned type, uint64_t body)
{
	const uint64_t section = upto4(at);
	at = section + SECTION_HEADER + body;
	make_section(image, section, SECTION_HEADER + body, type);
	return section;
}

/* A module in its section; gives the place of its first byte. */
uint64_t module_add(const struct module *m)
{
	const uint64_t first = section_add(holder_of(m->kind), m->size) + SECTION_HEADER;
	make_module(m, image + first);
	return first;
}

/* The region in a file of its own. */
void region_add(uint64_t z)
{
	now.z = z;
	region_file = file_start(TYPE_RAW);
	now.c = room(z);
	file_end();
}

/* The volume ends with a free end, or where its last file does; some bytes follow it. */
void volume_end(uint64_t free_bytes, uint64_t after)
{
	free_from = at;
	if (free_bytes != 0) {
		free_from = upto8(at);
		at = free_from + free_bytes;
		memset(image + free_from, 0xFF, free_bytes);
	}
	now.V = at;
	now.length = at + after;
	for (uint64_t k = 0; k < now.n; k++)
		now.entry[k] = word(pointed[k], k % 2 == 1, k % 3 == 1 ? 15 : 0);
	put_parts();
}

/* Entry k is to point to a place. */
void point(uint64_t k, uint64_t place)
{
	pointed[k] = place;
}

/* Where the next byte would come. */
uint64_t drafted(void)
{
	return at;
}
