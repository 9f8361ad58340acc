/* What a shipped file must have, by a text: bytes of its region, changed or not, and its base. */
#ifndef COMMAND_MUST_H
#define COMMAND_MUST_H

#include "changes.h"
#include "naming.h"

/* Bytes that must be: of the change the old ones are the maker's, the new ones those that must be. */
struct need {
	size_t line;
	const struct label *label; /* the name that has just these bytes; NULL where none has */
	struct change change;
	uint8_t *bytes;
	const uint8_t *is; /* what the file has; NULL where it has no such setting */
	bool held;
};

struct must {
	struct named file; /* no name where nothing is asked for */
	struct need *need;
	size_t count;
	bool any_base, has_base;
	uint64_t base, is_base, makers_base;
};

bool load_must(const char *name, const struct named *image, const uint8_t *reading,
	       const struct naming *naming, struct must *must);
void hold_must(struct must *must, const struct bytes *shipped, uint64_t base);
bool is_base_held(const struct must *must);
bool is_held(const struct must *must);
uint64_t count_held(const struct must *must);
void put_need_value(FILE *to, const struct need *need, const uint8_t *bytes);
void show_must(const struct must *must);
void json_must(const struct must *must);
void end_must(struct must *must);

#endif
