/* mend VENDOR SHIPPED OUT: the shipped file with every stray byte put back, written in one go with all that is told of it. */
#include "mending.h"

#include <inttypes.h>
#include <stdio.h>
#include <stdlib.h>

#include "checking.h"
#include "digest.h"
#include "files.h"
#include "forms.h"
#include "hex_text.h"
#include "json.h"
#include "messages.h"
#include "ranges.h"
#include "vouched.h"

/* The check's strays are put back: it has a place for the mended file. */
bool is_mending(const struct check *check)
{
	return check->options->out != NULL;
}

/* ---- by the library ---- */

/* The mended file as Intel HEX at its base, where that is asked for; false after a message. */
static bool make_text(struct check *check)
{
	const char *name = check->options->hex;
	if (name == NULL)
		return true;
	const uint32_t number = make_hex(&check->mended.bytes, count_of(check, PAJURENDA_AUDIT_BASE), &check->hex.bytes);
	if (number != PAJURENDA_ACCEPTED)
		(void)(number == PAJURENDA_SHORT ? fail_no_memory(name) : fail_answer());
	check->hex.name = name;
	return number == PAJURENDA_ACCEPTED;
}

/* A copy of the shipped file mended, and its text; false after a message. The audit before it was accepted, and filled a
   list that has room. */
bool put_back(struct check *check)
{
	const struct bytes *vendor = &check->vendor.bytes;
	struct bytes *file = &check->mended.bytes;
	uint8_t answer[PAJURENDA_AUDIT_BYTES] = { 0 };
	if (!copy_bytes(&check->shipped.bytes, file)) {
		fail_no_memory(check->options->out);
		return false;
	}
	const uint32_t number = pajurenda_mend(vendor->at, vendor->length, file->at, file->length, check->found.places,
					       PAJURENDA_PLACE_BYTES * (size_t)differences(&check->found), answer,
					       sizeof answer);
	if (number != PAJURENDA_ACCEPTED) {
		fail_answer();
		return false;
	}
	check->mended.name = check->options->out;
	return make_text(check);
}

/* ---- by lines ---- */

/* The ranges of strays, or those of settings, as `audit --ranges` shows them. */
static void show_ranges(const struct check *check, bool strays, unsigned options)
{
	struct ranges ranges;
	struct range range;
	start_ranges(&ranges, check);
	while (ferror(stdout) == 0 && next_range(&ranges, &range))
		if (range.stray == strays)
			show_range(&ranges, &range, (options & BYTES) != 0);
}

/* What was put back, and what is left: the settings. */
enum status show_mended(const struct check *check, unsigned options)
{
	put_naming(stdout, "", &check->naming);
	put_voucher(stdout, check->vouched);
	printf("base 0x%08" PRIX64 "\n", count_of(check, PAJURENDA_AUDIT_BASE));
	show_agreed(check);
	printf("put back %" PRIu64 "\n", count_of(check, PAJURENDA_AUDIT_STRAYS));
	show_ranges(check, true, options);
	printf("settings %" PRIu64 "\n", count_of(check, PAJURENDA_AUDIT_SETTINGS));
	printf("bits %" PRIu64 "\n", count_of(check, PAJURENDA_AUDIT_BITS));
	show_ranges(check, false, options);
	puts(verdict_of(check));
	return FINE;
}

/* ---- as a document ---- */

/* A file's digest. */
static void write_digest(const char *name, const struct bytes *file)
{
	char digits[DIGEST_DIGITS + 1];
	if (find_digest(file, digits))
		printf(", \"%s\": \"%s\"", name, digits);
	else
		printf(", \"%s\": null", name);
}

/* How much was put back, and the file before and after, by its digests. */
void write_mended(const struct check *check)
{
	printf(",\n  \"mended\": {\"put_back\": %" PRIu64, count_of(check, PAJURENDA_AUDIT_STRAYS));
	write_digest("sha256_before", &check->shipped.bytes);
	write_digest("sha256_after", &check->mended.bytes);
	putchar('}');
}

/* ---- the command ---- */

/* mend [--bytes | --json | -q] [--report FILE] [--text FILE] [--hex FILE] VENDOR SHIPPED OUT */
enum status do_mend(char **word, const struct options *options)
{
	struct options own = *options;
	char *pair[] = { word[0], word[1], NULL };
	const char *clash = find_clash(options->given);
	if (clash != NULL)
		return fail_usage("mend", clash, "", "");
	if (!is_digest("mend", options))
		return FAILED;
	own.out = word[2];
	return run_one(false, pair, &own);
}
