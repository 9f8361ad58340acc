/* What the two speed tables share: the image that is timed, and the calls that both have. */
#ifndef PAJURENDA_TABLES_H
#define PAJURENDA_TABLES_H

#include <stddef.h>
#include <stdint.h>

#include "pajurenda.h"

extern uint8_t *image, *shipped;
extern size_t size;
extern uint8_t answer[PAJURENDA_READ_BYTES];
extern volatile uint64_t refused; /* the sum of all numbers; 0 where nothing was refused */

/* The program's name, for its messages. */
extern const char table_name[];

/* Two bases in turn, whoever moves, so that every move moves. */
uint64_t next_base(void);

void library_read(void);
void plain_read(void);

/* Memory of zeros or the end; no call of a row was refused or the end; the end with what is wrong. */
void *zeros(size_t bytes);
void want_accepted(const char *row);
void stop(const char *what);

#endif
