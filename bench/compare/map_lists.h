/* Hand-off lists of memory to compare readers by: made block by block, or drawn. */
#ifndef BENCH_MAP_LISTS_H
#define BENCH_MAP_LISTS_H

#include <stddef.h>
#include <stdint.h>

#define MEMORY 0
#define RESERVED 5

/* The list under way, up to here. */
extern uint8_t *made;
extern size_t made_size;

/* Room for lists of so many bytes; once. */
void open_lists(size_t room);

/* The handoff block; a block of a type and a length; a resource of a type from a byte on; the end block. */
void begin_list(void);
void add_block(uint64_t type, uint64_t length);
void add_resource(uint64_t type, uint64_t start, uint64_t length);
void end_list(void);

/* Ranges all below a limit, which is given, of both types and others, among blocks that don't count: in a memory of some bytes, or of
   some pages. */
uint64_t draw_small_list(void);
uint64_t draw_paged_list(void);

/* Ranges anywhere, often at 0, 4 GiB and 2^64, sometimes one above or more than 128; the same, damaged. */
void draw_large_list(void);
void draw_damaged_list(void);

/* 128 ranges, by ascending start, by descending or mixed, in a list of so many bytes that has blocks of so many besides. */
enum order { ASCENDING, DESCENDING, MIXED };
void full_list(size_t size, uint64_t other, enum order order);

#endif
