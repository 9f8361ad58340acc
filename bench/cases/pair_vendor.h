/* The vendor's image of the pairs that the audit's program is run on. */
#ifndef BENCH_CASES_PAIR_VENDOR_H
#define BENCH_CASES_PAIR_VENDOR_H

void build_vendor(void);

#endif
