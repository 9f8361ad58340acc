/*
 * A dump with a list of hand-off blocks: it is read until the list has ended, or its fault is far
 * enough from the end of what was read, so that a pipe or a device needn't end.
 */
#include "dump.h"

#include <errno.h>
#include <stdlib.h>

#include "files.h"
#include "messages.h"
#include "pajurenda.h"

/* The longest list that is looked for; with a dump that is longer, the list must end before. */
#define MOST_DUMP ((size_t)67108864)

/* More than any block's length: no byte so far after its start says anything of a block. */
#define BEYOND_BLOCK 65536

/* The whole list's answer. */
uint32_t walk_dump(const struct bytes *dump, uint8_t *answer)
{
	return pajurenda_handoffs(dump->at, dump->length, answer, PAJURENDA_HANDOFFS_BYTES);
}

/* The answer is the same whatever follows: the list has ended, or its fault is far from the end. */
static bool is_settled(const struct bytes *dump)
{
	uint8_t answer[PAJURENDA_HANDOFFS_BYTES] = { 0 };
	return walk_dump(dump, answer) == PAJURENDA_ACCEPTED ||
	       dump->length - pajurenda_field(answer, PAJURENDA_HANDOFFS_PLACE) >= BEYOND_BLOCK;
}

/* The named dump's bytes, to be freed; false after a message. */
bool load_dump(struct named *dump)
{
	if (!load_until(dump->name, &dump->bytes, MOST_DUMP, is_settled))
		return false;
	if (dump->bytes.length < MOST_DUMP || is_settled(&dump->bytes))
		return true;
	free(dump->bytes.at);
	fail_at(dump->name, EFBIG);
	return false;
}
