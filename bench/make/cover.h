/* The files after the header file, laid so that no header and no free end has a byte of the region or of a patch word (25, 26). */
#ifndef BENCH_MAKE_COVER_H
#define BENCH_MAKE_COVER_H

#include <stdbool.h>
#include <stdint.h>

#define COVER_FILES 6
#define NOWHERE UINT64_MAX

/* One file: its type, or that of its only section where the file has one. */
struct covering {
	uint64_t at, end;
	unsigned type;
	bool section;
};

/* What is given: where the header file may end at the earliest, V, the region, the patch words, how many bytes a module's file has (0: none),
   whether the region's file has a section, whether the last file goes on to V though nothing is there.
   What is laid: the header file's end, the module's file (NOWHERE where none), the files, the free end (V where none). */
struct cover {
	uint64_t from, V, c, z, words, module;
	const uint64_t *place;
	bool section, filled;

	uint64_t end, M, free;
	unsigned files;
	struct covering file[COVER_FILES];
};

/* The layout, and its headers and free end; the module's file is left to whoever makes the module. */
void lay_cover(struct cover *cover);
void make_cover(const struct cover *cover, uint8_t *image);

#endif
