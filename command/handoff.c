/* handoff DUMP: the hand-off blocks that firmware left, a line or a JSON object for each. */
#include <inttypes.h>
#include <stdbool.h>
#include <stdio.h>
#include <stdlib.h>

#include "blocks.h"
#include "dump.h"
#include "json.h"
#include "messages.h"
#include "pajurenda.h"

/* The blocks that the walk found, by the library's own steps, until one can't be written. */
static enum status show_blocks(const struct bytes *dump, uint64_t count, bool json)
{
	uint8_t block[PAJURENDA_HANDOFF_BYTES] = { 0 };
	for (uint64_t i = 0; i < count && ferror(stdout) == 0; i++) {
		if (pajurenda_handoff(dump->at, dump->length, pajurenda_next(block), block,
				      sizeof block) != PAJURENDA_ACCEPTED)
			return fail_answer();
		if (json)
			show_object(dump, block, i == 0 ? "" : ",");
		else
			show_line(dump, block);
	}
	return FINE;
}

/* One document: the blocks, then the answer of the whole walk. */
static enum status show_document(const struct named *dump, uint32_t number, const uint8_t *answer)
{
	const uint64_t count = pajurenda_field(answer, PAJURENDA_HANDOFFS_COUNT);
	begin_json("handoff");
	json_text("file", dump->name);
	fputs(",\n  \"blocks\": [", stdout);
	const enum status status = show_blocks(&dump->bytes, count, true);
	printf("%s]", count == 0 ? "" : "\n  ");
	json_number("number", number);
	json_text("name", pajurenda_name(number));
	json_refusal(number);
	json_number("place", pajurenda_field(answer, PAJURENDA_HANDOFFS_PLACE));
	json_number("count", count);
	end_json();
	return status;
}

/* A loaded dump walked and shown; of a refused list the blocks before the fault. */
static enum status show_list(const struct named *dump, bool json)
{
	uint8_t answer[PAJURENDA_HANDOFFS_BYTES] = { 0 };
	const uint32_t number = walk_dump(&dump->bytes, answer);
	if (number != PAJURENDA_ACCEPTED)
		(void)refuse_handoff(number, pajurenda_field(answer, PAJURENDA_HANDOFFS_PLACE), dump);
	const enum status status =
		json ? show_document(dump, number, answer)
		     : show_blocks(&dump->bytes, pajurenda_field(answer, PAJURENDA_HANDOFFS_COUNT), false);
	if (number == PAJURENDA_ACCEPTED || status != FINE)
		return status;
	if (!json)
		printf("refused %" PRIu32 "\n", number);
	return FAILED;
}

/* handoff [--json] DUMP */
enum status do_handoff(char **word, const struct options *options)
{
	struct named dump = { .name = word[0] };
	if (!load_dump(&dump))
		return FAILED;
	const enum status status = show_list(&dump, (options->given & JSON) != 0);
	free(dump.bytes.at);
	return status;
}
