/* An answer buffer lent to a call and held against what the second reader says; the end where anything differs. */
#ifndef PAJURENDA_HELD_H
#define PAJURENDA_HELD_H

#include <stdbool.h>
#include <stddef.h>
#include <stdint.h>

#include "lent.h"

/* The buffer that is lent. */
extern struct lent lent_answer;

/* Room for it; once. */
void open_answer(void);

/* Drawn bytes for so many fields: exactly as long as they are, longer, or where it may be also too short; how long. */
size_t lend_answer(size_t fields, bool may_be_short);

/* The number is the second reader's, or that of a buffer that is too short, and every byte of the answer is as it must be. */
void settle_answer(uint32_t number, uint64_t second, const uint64_t *fields, size_t count);

/* The end, with what differs. */
void differ(const char *what);

#endif
