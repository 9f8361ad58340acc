/* The maker of modules, by the public documents on PE/COFF and PI: a TE, a PE32 or a PE32+ image with relocation blocks.
   Places count from the module's first byte, the one after its section's header; relative addresses are those of the documents. */
#ifndef BENCH_MAKE_MODULE_H
#define BENCH_MAKE_MODULE_H

#include <stdint.h>

enum kind { KIND_TE, KIND_PE32, KIND_PE64, KINDS };

#define TE_HEADER 40
#define MZ_HEADER 64
#define ROW 40
#define MODULE_ROWS 4
#define MODULE_BLOCKS 4096

/* Types of relocation entries. */
enum { ENTRY_SKIP = 0, ENTRY_WORD = 3, ENTRY_LONG = 10 };

/* A section header: where its data is in memory and in the file. */
struct row {
	uint64_t rva, memory, place, size;
};

/* What a module is made from. Its headers, then its data from `data` on, then the blocks from `blocks` on; `size` is all of it.
   stripped: TE alone; lfanew, directories, optional: PE32 and PE32+ alone. skew: how far relative addresses are above places (PE). */
struct module {
	enum kind kind;
	uint64_t base, stripped, lfanew, directories, optional, skew, rows;
	struct row row[MODULE_ROWS];
	uint64_t directory, directory_size;

	uint64_t opt, table, data, data_size, blocks, blocks_size, size;
	uint64_t block, page;
	uint8_t stream[MODULE_BLOCKS];
};

/* Sizes that the kind decides: the fixed part of the optional header, where the image base is in the headers, how wide it is. */
uint64_t fixed_part(enum kind kind);
uint64_t base_place(const struct module *m);
uint64_t base_width(enum kind kind);

/* A module with the usual numbers; they may be changed until the first entry. Then its headers and so many bytes of data. */
void start_module(struct module *m, enum kind kind);
void lay_head(struct module *m, uint64_t data_size);

/* The relative address of a place in the data. */
uint64_t rva_of(const struct module *m, uint64_t place);

/* One more entry, in a new block where the page is another; one for a word at a place; a block ended, with an entry of type 0 if need be. */
void add_entry(struct module *m, unsigned type, uint64_t rva);
void add_word(struct module *m, unsigned width, uint64_t place);
void end_block(struct module *m);

/* The blocks after the data, their row and the directory; the size. */
void lay_blocks(struct module *m);

/* Headers and blocks; the data's bytes stay as they are. */
void make_module(const struct module *m, uint8_t *at);

/* The type of section that holds the kind. */
unsigned holder_of(enum kind kind);

#endif
