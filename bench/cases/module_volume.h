/* A volume drafted file by file: the header file first, then whatever is added; the tables are written at its end. */
#ifndef BENCH_MODULE_VOLUME_H
#define BENCH_MODULE_VOLUME_H

#include "cases.h"

/* Where the region's file and the free end came to stand. */
extern uint64_t region_file, free_from;

void volume_start(uint64_t n);
uint64_t file_start(unsigned type);
void file_end(void);
uint64_t room(uint64_t bytes);
uint64_t section_add(unsigned type, uint64_t body);
uint64_t module_add(const struct module *m);
void region_add(uint64_t z);
void point(uint64_t k, uint64_t place);
void volume_end(uint64_t free_bytes, uint64_t after);
uint64_t drafted(void);

#endif
