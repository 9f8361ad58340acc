/* #109: the plan of an edition 1 image, and the groups that the four parts take from it. */
#ifndef BENCH_EDITION_CASES_H
#define BENCH_EDITION_CASES_H

#include "cases.h"

/* The header revision of edition 1, and the two lengths that its header may have. */
#define OLDER 1
#define SHORT_L UINT64_C(60)
#define LONG_L UINT64_C(64)

/* What an image with a volume, a header file and a header and nothing else is built from; attributes are the 32 bits at H+32. */
struct edition {
	uint64_t length, V, s, section;
	uint64_t revision, L, size, base, attributes, c, z;
};

/* edition_draft.c: the plan of the next image, and its bytes in buffer 0. */
extern struct edition older;
void edition_start(uint64_t section, uint64_t L);
void edition_end(uint64_t length);
void edition_build(void);
void edition_turn(uint64_t L);

/* edition_read.c, edition_audits.c, edition_refused.c */
void read_editions(void);
void audit_editions(void);
void setting_editions(void);
void release_editions(void);

#endif
