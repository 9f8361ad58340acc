/* An answer buffer lent to a call and held against what the second reader says. */
#include "held.h"

#include <inttypes.h>
#include <stdio.h>
#include <stdlib.h>
#include <string.h>

#include "fields.h"
#include "images.h"

#define ANSWER_ROOM ((size_t)4096)

struct lent lent_answer;

static uint8_t filled[ANSWER_ROOM], answered[ANSWER_ROOM];

void open_answer(void)
{
	open_lent(&lent_answer, ANSWER_ROOM);
}

void differ(const char *what)
{
	printf("different: %s\n%s", what, whereabouts);
	exit(1);
}

size_t lend_answer(size_t fields, bool may_be_short)
{
	const uint64_t kind = below(8);
	size_t length = 8 * fields;
	if (kind == 0 && may_be_short)
		length = (size_t)below(length);
	else if (kind < 3)
		length += (size_t)below(40);
	fill_bytes(filled, length);
	memcpy(answered, filled, length);
	lend(&lent_answer, filled, length);
	return length;
}

void settle_answer(uint32_t number, uint64_t second, const uint64_t *fields, size_t count)
{
	if (lent_answer.length < 8 * count)
		second = PAJURENDA_SHORT;
	else
		put_fields(answered, fields, count);
	if (number != second) {
		printf("library %" PRIu32 ", second reader %" PRIu64 "\n", number, second);
		differ("the number");
	}
	if (!same_lent(&lent_answer, "answer", answered))
		differ("the answer");
}
