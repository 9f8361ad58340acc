/* A verify told by lines: is the shipped file the release of the vendor's image with these sheets? */
#include "forms.h"

#include <inttypes.h>
#include <stdio.h>

#include "changes.h"
#include "letters.h"
#include "messages.h"
#include "ranges.h"
#include "vouched.h"

/* How much of a range's bytes stands in a line; --text and --json have all. */
#define MOST_SHOWN 16

/* The verdict, and what must be beside it. */
void show_verdict(const struct check *check)
{
	const char *required = required_of(check);
	const char *open = open_of(check);
	printf("verdict %s%s%s%s%s\n", verdict_of(check), required == NULL ? "" : ", ",
	       required == NULL ? "" : required, open == NULL ? "" : ", ", open == NULL ? "" : open);
}

/* Another base that the words agree on, where they do. */
void show_agreed(const struct check *check)
{
	if (!check->agreed.found)
		return;
	put_agreed(stdout, check);
	fputs(": the base word may be damaged\n", stdout);
}

/* The counts, and what they are against. */
void show_found(const struct check *check)
{
	const char *against = reference_name(check);
	printf("settings %" PRIu64 " (against %s)\n", count_of(check, PAJURENDA_AUDIT_SETTINGS), against);
	printf("strays %" PRIu64 "\n", count_of(check, PAJURENDA_AUDIT_STRAYS));
	printf("bits %" PRIu64 "\n", count_of(check, PAJURENDA_AUDIT_BITS));
}

/* The sheets in the order they were applied, each with its count of entries and what they replace in the maker's
   image. */
static enum status show_sheets(const struct check *check)
{
	for (size_t i = 0; i < check->sheet_count; i++) {
		printf("sheet %zu entries %" PRIu64 " ", i + 1,
		       number_at(&check->sheets[i].bytes, 12, 2));
		if (check->releasers[i].list != NULL)
			printf("owner %" PRIu64 " ", check->releasers[i].owner);
		put_name(stdout, check->sheets[i].name);
		putchar('\n');
		if (show_changes(&check->vendor.bytes, &check->sheets[i].bytes,
				 names_of(&check->naming)) != FINE)
			return FAILED;
	}
	return FINE;
}

/* A line for each range that differs from the release, until one can't be written. */
static void show_ranges(const struct check *check)
{
	struct ranges ranges;
	struct range range;
	start_ranges(&ranges, check);
	while (ferror(stdout) == 0 && next_range(&ranges, &range))
		put_range(stdout, &ranges, &range, MOST_SHOWN);
}

/* The base, that which it must be, and the move to it from the maker's. */
static void show_base(const struct check *check)
{
	printf("base 0x%08" PRIX64 "\n", count_of(check, PAJURENDA_AUDIT_BASE));
	if (check->has_base)
		printf("base wanted 0x%08" PRIX64 " by %s%s\n", check->base,
		       check->record.name != NULL ? "the record" : "--base", is_at_base(check) ? "" : ", not held");
	show_agreed(check);
	printf("move %" PRId64 "\n", pajurenda_signed_field(check->moved, PAJURENDA_RELEASE_MOVE));
}

/* The record, where the sheets are its. */
static void show_record(const struct check *check)
{
	if (check->record.name == NULL)
		return;
	printf("record steps %zu ", check->record.count);
	put_name(stdout, check->record.name);
	putchar('\n');
}

/* What isn't the maker's any more, whoever set it. */
static void show_changed(const struct check *check)
{
	struct ranges ranges;
	struct range range;
	start_changes(&ranges, check);
	while (ferror(stdout) == 0 && next_range(&ranges, &range))
		if (!range.stray)
			put_changed(stdout, &ranges, &range);
}

/* The whole output where every file was taken: the verdict, then what it is about. */
enum status show_verify(const struct check *check)
{
	put_naming(stdout, "", &check->naming);
	show_verdict(check);
	if (unchecked_of(check) != NULL)
		printf("not checked %s\n", unchecked_of(check));
	if (other_of(check) != NULL)
		printf("the file is %s\n", other_of(check));
	show_must(&check->must);
	put_voucher(stdout, check->vouched);
	show_record(check);
	show_base(check);
	if (show_sheets(check) != FINE)
		return FAILED;
	show_changed(check);
	show_found(check);
	show_ranges(check);
	return status_of(check);
}
