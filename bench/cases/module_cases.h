/* What the files of #107's cases share: a volume drafted file by file around one module on trial. */
#ifndef BENCH_MODULE_CASES_H
#define BENCH_MODULE_CASES_H

#include "module_volume.h"

/* The module on trial, and where the parts of the drafted volume stand: its file, its section's header, its first byte;
   the raw file with the patch words, and the first of them; the pad file. */
struct trial {
	uint64_t file, section, at;
	uint64_t words_file, words, pad_file;
};

extern struct module mod;
extern struct trial trial;

/* module_draft.c: the usual volume around the module on trial; then something put into it. */
void usual(enum kind kind);
void around(void);
void judge(uint64_t number);
void poke(uint64_t at, unsigned width, uint64_t value, uint64_t number);
void poke_file(uint64_t file, uint64_t offset, unsigned width, uint64_t value, uint64_t number);
void flip(uint64_t at, uint64_t mask, uint64_t number);
void patch(uint64_t k, uint64_t place);
void patch_at(uint64_t place, uint64_t number);
void region_at(uint64_t c, uint64_t number);

/* One entry of the module's blocks, counted from the first block's start; and what it says for a place. */
uint64_t entry_at(uint64_t i);
uint64_t entry_for(unsigned type, uint64_t place);

/* module_files.c */
void files_header(void);
void files_types(void);
void files_places(void);
void files_last(void);
void files_free(void);
void files_first(void);
void sections_sizes(void);
void sections_types(void);
void sections_left(void);

/* module_heads.c */
void heads_marks(enum kind kind);
void heads_cut(enum kind kind);
void heads_rows(enum kind kind);
void heads_data(enum kind kind);
void heads_unjudged(enum kind kind);
void heads_directory(enum kind kind);
void heads_stripped(void);
void heads_lfanew(enum kind kind);
void heads_optional(enum kind kind);
void heads_kind(enum kind kind);

/* module_blocks.c */
void blocks_sizes(enum kind kind);
void blocks_ends(enum kind kind);
void blocks_run(enum kind kind);
void blocks_pages(enum kind kind);
void blocks_types(enum kind kind);
void blocks_rows(enum kind kind);
void blocks_folded(enum kind kind);
void blocks_hidden(enum kind kind);
void blocks_none(enum kind kind);

/* module_words.c */
void words_apart(enum kind kind);
void words_patch(enum kind kind);
void words_headers(enum kind kind);
void words_own_headers(enum kind kind);
void words_blocks(enum kind kind);
void words_outside(enum kind kind);
void words_gap(enum kind kind);
void words_sections(enum kind kind);
void words_base(enum kind kind);
void words_free(void);

/* module_region.c */
void region_files(void);
void region_heads(enum kind kind);
void region_blocks(enum kind kind);
void region_words(enum kind kind);
void region_free(void);

/* module_several.c: volumes of several files and modules; what the releases and the audits start from. */
#define SEVERALS 6
#define MOST_INNER 4

/* A module of such a volume, and the place of its first byte. */
struct inner {
	struct module m;
	uint64_t at;
};

extern struct inner inner[MOST_INNER];
extern unsigned inner_count;

void several(unsigned k);
void several_read(void);

/* module_values.c: the words of the image in the buffer, by the second reader; values for them. */
#define MOST_SHOWN 64
extern uint64_t shown, shown_place[MOST_SHOWN], shown_width[MOST_SHOWN];
void list_words(void);
uint64_t odd_value(uint64_t width, uint64_t i, uint64_t from, uint64_t to);

#endif
