/* Refusals 34 to 37 in words, and 30 to 33 of the list that they come after. */
#include <inttypes.h>
#include <stdio.h>

#include "dump.h"
#include "memory.h"
#include "messages.h"

/* 34: the first resource that ends above 2^64. */
static void say_above(const struct bytes *dump)
{
	struct resources all = { .dump = dump };
	struct resource one;
	while (next_resource(&all, &one))
		if (one.size > 0 && one.size - 1 > UINT64_MAX - one.start) {
			fprintf(saying(), "that of type %" PRIu64 " at %" PRIu64, one.type, one.place);
			fprintf(saying(), " has start 0x%08" PRIX64 ", size 0x%08" PRIX64, one.start,
				one.size);
			return;
		}
}

/* 35: how many there are. */
static void say_many(const struct bytes *dump)
{
	struct resources all = { .dump = dump };
	struct resource one;
	uint64_t count = 0;
	while (next_resource(&all, &one))
		count++;
	fprintf(saying(), "it has %" PRIu64, count);
}

/* 37: how much was to be placed, and among how many ranges. */
static void say_nowhere(const struct bytes *dump, uint64_t size)
{
	struct map map;
	make_map(dump, &map);
	fprintf(saying(), "%" PRIu64 " bytes, free ranges %zu (pajurenda map shows them)", size, map.count);
}

/* The list's own refusal, where its walk was refused. */
static enum status refuse_list(uint32_t number, const struct named *dump)
{
	uint8_t answer[PAJURENDA_HANDOFFS_BYTES] = { 0 };
	if (walk_dump(&dump->bytes, answer) != number)
		return fail_answer();
	print_refused(number);
	return refuse_handoff(number, pajurenda_field(answer, PAJURENDA_HANDOFFS_PLACE), dump);
}

/* A map's refusal, or a place's for an image of so many bytes. */
enum status refuse_memory(uint32_t number, const struct named *dump, uint64_t size)
{
	if (number >= PAJURENDA_BLOCK && number <= PAJURENDA_KIND)
		return refuse_list(number, dump);
	if (number < PAJURENDA_ABOVE || number > PAJURENDA_NOWHERE)
		return fail_answer();
	begin_refusal(number, dump->name);
	say_rule(number);
	if (number == PAJURENDA_ABOVE)
		say_above(&dump->bytes);
	else if (number == PAJURENDA_MANY)
		say_many(&dump->bytes);
	else if (number == PAJURENDA_IMAGE)
		fprintf(saying(), "SIZE is %" PRIu64, size);
	else
		say_nowhere(&dump->bytes, size);
	return end_refusal();
}
