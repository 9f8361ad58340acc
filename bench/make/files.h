/* The makers of volumes, files and sections, as the public documents lay them out: cases, pairs and comparison build with them.
   What no rule of ours judges is filled in too, so that other people's tools find the same parts. */
#ifndef BENCH_MAKE_FILES_H
#define BENCH_MAKE_FILES_H

#include <stdint.h>

#define VOLUME_HEADER 72
#define FILE_HEADER 24
#define SECTION_HEADER 4

/* Types of files: raw and pad files have no sections. */
enum { TYPE_RAW = 0x01, TYPE_FREEFORM = 0x02, TYPE_PEIM = 0x06, TYPE_DRIVER = 0x07, TYPE_PAD = 0xF0 };

/* Types of sections; those of the two kinds of modules, and some that are passed over. */
enum { HOLDS_PE32 = 0x10, HOLDS_TE = 0x12, HOLDS_DXE_DEPEX = 0x13, HOLDS_NAME = 0x15, HOLDS_RAW = 0x19, HOLDS_PEI_DEPEX = 0x1B };

/* Numbers are little-endian; bits above the width are left out. */
void set_number(uint8_t *bytes, uint64_t at, unsigned width, uint64_t value);
uint64_t number_in(const uint8_t *bytes, uint64_t at, unsigned width);

/* The next multiple of 4 or 8. */
uint64_t upto4(uint64_t value);
uint64_t upto8(uint64_t value);

/* A volume's header of h bytes, and where x isn't 0 its extension of e bytes; the sum is made by the next call, which stops at a length. */
void make_volume(uint8_t *image, uint64_t V, uint64_t h, uint64_t x, uint64_t e);
void sum_volume(uint8_t *image, uint64_t length);

/* A file's header with its sum; the name is that of the header file, or of the pad files, or made from a number. */
#define NAME_HEADER_FILE UINT64_C(0)
#define NAME_PAD UINT64_MAX
void make_file(uint8_t *image, uint64_t at, uint64_t size, unsigned type, uint64_t name);
void sum_file(uint8_t *image, uint64_t at);

/* A section's header. */
void make_section(uint8_t *image, uint64_t at, uint64_t size, unsigned type);

#endif
