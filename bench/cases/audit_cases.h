/* What the files of the audit part and of the mend part share: a shipped file and the tally of what was turned in it. */
#ifndef BENCH_AUDIT_CASES_H
#define BENCH_AUDIT_CASES_H

#include "cases.h"

/* audit_ship.c */
void ship_built(uint64_t base);
void ship(uint64_t base);
void turn_byte(uint64_t at, uint64_t mask);
uint64_t turned(void);
void audit(uint64_t places, uint64_t number);
void audit_exact(void);
void audit_counting(uint64_t places);
void put_back(uint64_t places, uint64_t number);
void put_back_bytes(uint64_t bytes, uint64_t number);
void put_back_exact(void);

/* audit_words.c */
void audit_unmoved(unsigned k);
void audit_places(unsigned k);
void audit_counts(unsigned k);
void audit_most(void);

/* audit_lists.c */
void audit_lists(unsigned k);
void audit_many(void);

/* mend_lists.c */
void mend_lists(unsigned k);
void mend_all(unsigned k, bool set);

/* mend_refused.c */
void mend_illegal(unsigned k);
void mend_pair(unsigned k);
void mend_refused(unsigned k);
void mend_editions(void);

/* mend_modules.c */
void mend_modules(unsigned k);

#endif
