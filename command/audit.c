/* An audit told by lines: every difference between the shipped file and the vendor's image moved. */
#define _XOPEN_SOURCE 700

#include "forms.h"

#include <inttypes.h>
#include <stdio.h>
#include <unistd.h>

#include "edition.h"
#include "ranges.h"
#include "show.h"
#include "vouched.h"

/* How many bytes of a range stand in a line, and how many before and after it. */
#define MOST_SHOWN ((uint64_t)16)
#define AROUND ((uint64_t)8)

/* The name that has a setting's byte, where there are names. */
static void show_name_at(const struct check *check, uint32_t place)
{
	const struct names *names = names_of(&check->naming);
	const uint64_t region = pajurenda_field(check->reading, PAJURENDA_READ_REGION);
	if (names == NULL || pajurenda_is_stray(place))
		return;
	const struct label *label = names_at(names, (uint32_t)(pajurenda_position(place) - region));
	putchar(' ');
	if (label == NULL)
		fputs("no name", stdout);
	else
		names_put_label(stdout, label);
}

/* One line for each difference until one can't be written. */
static void show_list(const struct check *check)
{
	const uint64_t count = differences(&check->found);
	for (uint64_t i = 0; i < count && ferror(stdout) == 0; i++) {
		const uint32_t place = pajurenda_place(check->found.places, (size_t)i);
		printf("%c %" PRIu32, pajurenda_is_stray(place) ? 'X' : 'S', pajurenda_position(place));
		show_name_at(check, place);
		putchar('\n');
	}
}

/* The same with the byte it should be and the byte it is. */
static void show_bytes(const struct check *check)
{
	const struct bytes *wanted = &check->reference, *found = &check->shipped.bytes;
	const uint64_t count = differences(&check->found);
	for (uint64_t i = 0; i < count && ferror(stdout) == 0; i++) {
		const uint32_t place = pajurenda_place(check->found.places, (size_t)i);
		const uint32_t at = pajurenda_position(place);
		printf("%c %" PRIu32, pajurenda_is_stray(place) ? 'X' : 'S', at);
		if (at < wanted->length && at < found->length)
			printf(" %02X %02X", (unsigned)wanted->at[at], (unsigned)found->at[at]);
		show_name_at(check, place);
		putchar('\n');
	}
}

/* Up to eight bytes of the file that stand before a range, or after it. */
static void show_around(const char *word, const struct bytes *file, uint64_t from, uint64_t to)
{
	printf(" %s ", word);
	if (from < to)
		show_apart(stdout, file->at + from, (size_t)(to - from));
	else
		fputs("nothing", stdout);
}

/* A range's bytes, the maker's and the file's, and what stands around them in the file. */
static void show_inside(const struct check *check, const struct range *range)
{
	const struct bytes *file = &check->shipped.bytes;
	const uint64_t first = range->first, end = range->last + 1, left = file->length - end;
	fputs(" maker's ", stdout);
	put_range_bytes(stdout, &check->reference, range, MOST_SHOWN);
	fputs(" is ", stdout);
	put_range_bytes(stdout, file, range, MOST_SHOWN);
	show_around("preceded by", file, first < AROUND ? 0 : first - AROUND, first);
	show_around("followed by", file, end, end + (left < AROUND ? left : AROUND));
}

/* A range with where it lies, and with its bytes where they are asked for. */
void show_range(const struct ranges *ranges, const struct range *range, bool bytes)
{
	put_place(stdout, ranges, range);
	if (bytes)
		show_inside(ranges->check, range);
	put_range_names(stdout, ranges, range, " -> ");
	putchar('\n');
}

/* Neighbours joined. */
static void show_ranges(const struct check *check, bool bytes)
{
	struct ranges ranges;
	struct range range;
	start_ranges(&ranges, check);
	while (ferror(stdout) == 0 && next_range(&ranges, &range))
		show_range(&ranges, &range, bytes);
}

/* The differences as the options want them. */
static void show_differences(const struct check *check, unsigned options)
{
	if ((options & RANGES) != 0)
		show_ranges(check, (options & BYTES) != 0);
	else if ((options & BYTES) != 0)
		show_bytes(check);
	else
		show_list(check);
}

/* The verdict, and what it leaves open. */
static void show_end(const struct check *check)
{
	show_verdict(check);
	if (unchecked_of(check) != NULL)
		printf("not checked %s\n", unchecked_of(check));
}

/* The whole output of an accepted audit: the verdict first for who looks at a terminal, and last for programs;
   of edition 1 also how it was compared. */
enum status show_audit(const struct check *check, unsigned options)
{
	const bool seen = isatty(STDOUT_FILENO) != 0;
	if (seen)
		show_end(check);
	put_naming(stdout, "", &check->naming);
	put_voucher(stdout, check->vouched);
	if (is_older(check->reading))
		printf("edition 1 %s\n", byte_for_byte);
	printf("base 0x%08" PRIX64 "\n", count_of(check, PAJURENDA_AUDIT_BASE));
	show_agreed(check);
	show_found(check);
	show_differences(check, options);
	show_must(&check->must);
	if (!seen)
		show_end(check);
	return status_of(check);
}
