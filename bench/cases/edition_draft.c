/* #109: images of edition 1, as short as they can be or longer, and edition 2 ones whose header says edition 1. */
#include "edition_cases.h"

struct edition older;

/* A section of a size and a header's length, all else right; file, volume and image end with the section. */
void edition_start(uint64_t section, uint64_t L)
{
	const uint64_t f = VOLUME_HEADER;
	older = (struct edition){
		.s = FILE_HEADER + section, .section = section, .revision = OLDER, .L = L, .base = 0xFFF80000,
		.attributes = 0x0005F001, .c = 0x94, .z = 0x30,
	};
	edition_end(f + older.s);
}

/* Volume and image end here, as the header says. */
void edition_end(uint64_t length)
{
	older.length = older.V = older.size = length;
}

/* The header of the planned image. */
static void put_older(uint64_t H)
{
	text(H, "FSPH");
	put(H + 4, 4, older.L);
	put(H + 11, 1, older.revision);
	put(H + 12, 4, 0x00000203);
	put(H + 16, 8, UINT64_C(0x31302D5441455254));
	put(H + 24, 4, older.size);
	put(H + 28, 4, older.base);
	put(H + 32, 4, older.attributes);
	put(H + 36, 4, older.c);
	put(H + 40, 4, older.z);
}

/* The planned image in the buffer; bytes that no rule speaks of are not zero. */
void edition_build(void)
{
	const uint64_t f = VOLUME_HEADER;
	now = (struct plan){ .length = older.length, .V = older.V, .h = VOLUME_HEADER, .base = older.base, .fill = 65536,
			     .identity = UINT64_C(0x31302D5441455254), .revision = 0x00000203, .z = 64 };
	spot = (struct spots){ .f = f, .s = older.s, .S = older.section, .H = f + FILE_HEADER + SECTION_HEADER, .m = NOWHERE };
	put_background();
	make_volume(image, older.V, VOLUME_HEADER, 0, 0);
	make_file(image, f, older.s, TYPE_FREEFORM, NAME_HEADER_FILE);
	make_section(image, f + FILE_HEADER, older.section, HOLDS_RAW);
	put_older(spot.H);
	mend();
}

/* The image of edition 2 in the buffer says that it is edition 1: nothing else of it changes. */
void edition_turn(uint64_t L)
{
	put(spot.H + 11, 1, OLDER);
	put(spot.H + 4, 4, L);
	mend();
}
