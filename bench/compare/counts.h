/* What a run of compare.c has had, and whether that is all it must have. */
#ifndef PAJURENDA_COUNTS_H
#define PAJURENDA_COUNTS_H

#include <stdint.h>

#include "../second/second.h"

enum call { READ, RELEASE, SHEET, SETTING, AUDIT, CONTENTS, CALLS };

extern const char *const call_name[CALLS];

/* One call on the model's buffers as drawing.h has them: its number, what a release did, how a sheet by itself is. */
void count_call(enum call call, uint32_t number);
void count_release(const struct second_released *r, uint64_t caller);
void count_sheet(const struct second_judged *r);

/* Says the counts; 1 where a run from its start on lacks something that one of its length must have. */
int conclude(uint64_t first, uint64_t count);

#endif
