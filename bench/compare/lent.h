/* Buffers lent to the library, and how a comparison starts and ends. */
#ifndef PAJURENDA_LENT_H
#define PAJURENDA_LENT_H

#include <stdbool.h>
#include <stddef.h>
#include <stdint.h>

/* A buffer with guard bytes and untouchable pages around it. */
struct lent {
	uint8_t *low;
	uint8_t *at;
	size_t room, length;
	size_t lead, tail;
};

/* What is under way, for a report; a line with its end. */
extern char whereabouts[96];

/* Memory or the end. */
void *memory(void *got);

/* A buffer of some room, of which nothing is lent yet. */
void open_lent(struct lent *lent, size_t room);

/* Bytes lent: against the upper edge, against the lower, or between guard bytes, as is drawn. */
void lend(struct lent *lent, const uint8_t *bytes, size_t length);

/* Says where the lent bytes differ from those wanted, or the guard bytes from what they were; true where they do not. */
bool same_lent(const struct lent *lent, const char *name, const uint8_t *wanted);

/* From here on a touch outside a lent buffer, or any sudden end of a call, is told with its whereabouts. */
void watch_faults(void);

/* How often each number came that a call gave. */
void show_seen(const char *call, const uint64_t *seen);

/* A decimal number of the command line, or the end. */
uint64_t number_of(const char *text);

#endif
