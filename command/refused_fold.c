/* Refusals of a fold in words: which sheet of the pile it is. The library is asked again, with fewer sheets. */
#include <inttypes.h>
#include <stdio.h>

#include "folding.h"
#include "letters.h"
#include "messages.h"
#include "pajurenda.h"
#include "show.h"

/* The sheet that makes the pile refused with 15 or 16: the first one that is, beside the first of all. */
static const struct named *find_bad(struct folding *folding, uint32_t number)
{
	for (size_t i = 0; i < folding->count; i++)
		if (fold_some(folding, i, i + 1) == number)
			return &folding->sheets[i];
	return NULL;
}

/* The three parts of an identity, alike in form for both sheets. */
static void say_bound(const struct named *sheet)
{
	show_identity(saying(), sheet->bytes.at);
	fprintf(saying(), " revision 0x%08" PRIX64 " extended 0x%04" PRIX64,
		number_at(&sheet->bytes, 8, 4), number_at(&sheet->bytes, 14, 2));
}

/* 16: what the sheet is for, and what the first is for. */
static enum status refuse_other(const struct named *first, const struct named *sheet)
{
	begin_refusal(PAJURENDA_IDENTITY, sheet->name);
	fputs("the sheets that are folded must all be for one identity, revision and extended number; "
	      "the sheet is for ", saying());
	say_bound(sheet);
	fputs(", ", saying());
	put_name(saying(), first->name);
	fputs(" is for ", saying());
	say_bound(first);
	return end_refusal();
}

/* 29: the first sheet with which those before it don't fold any more, and none of the larger piles does. */
static enum status refuse_large(struct folding *folding)
{
	size_t fold = folding->count - 1;
	while (fold > 0 && fold_some(folding, 0, fold) != PAJURENDA_ACCEPTED)
		fold--;
	if (fold == 0)
		return fail_answer();
	begin_refusal(PAJURENDA_FOLDED, folding->sheets[fold].name);
	say_rule(PAJURENDA_FOLDED);
	fprintf(saying(), "it is sheet %zu of %zu, and those before it fold into one sheet of %" PRIu64
		" entries and %zu bytes", fold + 1, folding->count, number_at(&folding->folded, 12, 2),
		folding->folded.length);
	return end_refusal();
}

/* What the library refused. */
enum status refuse_fold(struct folding *folding, uint32_t number)
{
	if (number == PAJURENDA_FOLDED)
		return refuse_large(folding);
	if (number != PAJURENDA_SHEET && number != PAJURENDA_IDENTITY)
		return fail_answer();
	const struct named *sheet = find_bad(folding, number);
	if (sheet == NULL)
		return fail_answer();
	return number == PAJURENDA_SHEET ? refuse_sheet(sheet) : refuse_other(&folding->sheets[0], sheet);
}
