/* Refusals 30 to 33 in words: what stands in the dump where a block should. */
#include <inttypes.h>
#include <stdio.h>

#include "letters.h"
#include "messages.h"
#include "pajurenda.h"
#include "refusals.h"

/* No block is longer, so how many more bytes there are says nothing. */
#define LONGEST_BLOCK 65535

/* What a block's header says. */
static void say_block(const struct bytes *dump, uint64_t place)
{
	fprintf(saying(), "type 0x%04" PRIX64 ", length %" PRIu64, number_at(dump, place, 2),
		number_at(dump, place + 2, 2));
}

/* 30: the header where there is one, and how far the dump goes. */
static void say_length_left(const struct bytes *dump, uint64_t place)
{
	const uint64_t left = place < dump->length ? dump->length - place : 0;
	if (left >= 8) {
		say_block(dump, place);
		fputs(", ", saying());
	}
	if (left > LONGEST_BLOCK)
		fprintf(saying(), "more than %d bytes left", LONGEST_BLOCK);
	else
		fprintf(saying(), "%" PRIu64 " bytes left", left);
}

/* A list's refusal, 30 to 33, on standard error alone. */
enum status refuse_handoff(uint32_t number, uint64_t place, const struct named *dump)
{
	if (number < PAJURENDA_BLOCK || number > PAJURENDA_KIND)
		return fail_answer();
	begin_line(dump->name);
	fprintf(saying(), ": refused %" PRIu32 " %s at %" PRIu64 ": ", number, pajurenda_name(number),
		place);
	say_rule(number);
	if (number == PAJURENDA_BLOCK)
		say_length_left(&dump->bytes, place);
	else if (number == PAJURENDA_NOTHING)
		fprintf(saying(), "the file has %zu bytes", dump->bytes.length);
	else
		say_block(&dump->bytes, place);
	return end_refusal();
}
