/* The four plans that the read part damages, and the ways to show one. */
#ifndef BENCH_READ_PLANS_H
#define BENCH_READ_PLANS_H

#include "cases.h"

#define PLANS 4

void start(unsigned k);
void plain(uint64_t number);
void anew(uint64_t number);
void hit(uint64_t at, uint64_t width, uint64_t value, uint64_t number);
void raw(uint64_t at, uint64_t width, uint64_t value, uint64_t number);
void turn(uint64_t at, uint64_t mask, uint64_t number);
void turn_raw(uint64_t at, uint64_t mask, uint64_t number);
void entry(uint64_t k, uint64_t value, uint64_t number);

#endif
