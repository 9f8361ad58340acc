/* The makers of large images with modules: those that the speed rows take, and the worst that we know of. */
#ifndef BENCH_MAKE_LARGE_H
#define BENCH_MAKE_LARGE_H

#include <stdbool.h>
#include <stdint.h>

#define LARGE_PATCHES 1024
#define LARGE_MOST UINT64_C(0x1000000)

/* What a large image is made from, and where its parts are: H, E, the region, the first byte of the module (the last one where there are
   several), how many modules and relocation words it has. */
struct large {
	uint64_t length, base, patches, z;
	uint64_t identity, revision, extended;

	uint64_t H, E, c, module, modules, words;
};

/* So many modules of all kinds in as many files, with so many relocation words in all, ascending within each or in no order. */
void large_modules(struct large *large, uint8_t *image, uint64_t modules, uint64_t words, bool shuffled);

/* What a plain walk takes: about as long as the image is, entries times section headers (minutes for 16 MiB), or hundreds of millions of
   blocks or entries times section headers (hours: only a bounded walk may be given these). */
enum cost { COST_PLAIN, COST_LONG, COST_ENDLESS };

/* The worst images that we know of, by name; each is accepted, and as long as the plan says (4 MiB at least where it has 65,535 section
   headers, 64 KiB else). */
struct hostile {
	const char *name;
	void (*make)(struct large *large, uint8_t *image);
	enum cost cost;
};

extern const struct hostile hostile[];
extern const unsigned hostiles;

/* The plan that all of them start from: the usual identity, a region of 4,096 bytes, so many patch words. */
void plan_large(struct large *large, uint64_t length, uint64_t patches);

#endif
