/* A shipped file held against what it should be, by the library's calls alone. */
#include "checked.h"

#include <stdlib.h>
#include <string.h>

#include "edition.h"
#include "files.h"
#include "mending.h"
#include "messages.h"
#include "released.h"
#include "sheets.h"

/* The audit of the shipped file against an image; its refusals are the pair's. */
static enum status audit_against(struct check *check, const struct bytes *image,
				 struct findings *findings)
{
	const uint32_t number = find_differences(image, &check->shipped.bytes, findings);
	if (number == PAJURENDA_ACCEPTED)
		return FINE;
	const bool of_pair = number == PAJURENDA_PAIR || number == PAJURENDA_NEWBASE;
	return refuse_check(check, number, of_pair ? &check->shipped : &check->vendor);
}

/* ---- what the file should be ---- */

/* The reference, moved to the shipped base; the library took that base before. */
static enum status move_reference(struct check *check, uint64_t base)
{
	return move_alone(&check->reference, base, check->moved) ? FINE : fail_answer();
}

/* Something is shown of what the file should be: bytes, names with their values, a page or a document. */
static bool shows_reference(const struct check *check)
{
	return check->verify ||
	       (check->options->given & (BYTES | JSON | REPORT | REPORTS | TEXT | NAMES)) != 0;
}

/* audit: the vendor's image moved, where it is shown; one of edition 1 stays where it is. */
static enum status judge_audit(struct check *check)
{
	if (audit_against(check, &check->vendor.bytes, &check->found) != FINE)
		return FAILED;
	find_agreed(check, &check->found);
	if (is_older(check->reading) || !shows_reference(check))
		return FINE;
	const uint64_t base = pajurenda_field(check->found.answer, PAJURENDA_AUDIT_BASE);
	return move_read(&check->reference, check->reading, base, check->moved) ? FINE : fail_answer();
}

/* One sheet onto the reference: by the list that was named, or by the one that gives owner 1 all. */
static uint32_t release_sheet(struct check *check, size_t sheet)
{
	uint8_t answer[PAJURENDA_RELEASE_BYTES] = { 0 };
	const struct asking asking = ask_for(check, sheet);
	if (asking.owners != NULL)
		return release_by(&check->reference, &asking, answer);
	return release_by_one(&check->reference, &asking.sheet->bytes, asking.base, answer);
}

/* The sheets onto the reference, one after the other; of a record each step's result is the recorded one. */
static enum status release_sheets(struct check *check)
{
	for (size_t i = 0; i < check->sheet_count; i++) {
		const uint32_t number = release_sheet(check, i);
		if (number != PAJURENDA_ACCEPTED)
			return refuse_check(check, number, &check->sheets[i]);
		if (check->record.name != NULL && !hold_step(check, i))
			return FAILED;
	}
	return FINE;
}

/* How far the shipped file is moved from the vendor's image, where a record's steps have moved the reference before. */
static enum status find_move(struct check *check, uint64_t base)
{
	struct bytes copy;
	if (check->record.name == NULL)
		return FINE;
	if (!copy_bytes(&check->vendor.bytes, &copy))
		return fail_no_memory(check->vendor.name);
	const bool moved = move_alone(&copy, base, check->moved);
	free(copy.at);
	return moved ? FINE : fail_answer();
}

/* verify: the vendor's image released with the sheets, at the shipped base, which the audit against the vendor's image
   names. */
static enum status judge_verify(struct check *check)
{
	if (release_sheets(check) != FINE ||
	    audit_against(check, &check->vendor.bytes, &check->from_vendor) != FINE)
		return FAILED;
	find_agreed(check, &check->from_vendor);
	const uint64_t base = pajurenda_field(check->from_vendor.answer, PAJURENDA_AUDIT_BASE);
	if (move_reference(check, base) != FINE || find_move(check, base) != FINE ||
	    audit_against(check, &check->reference, &check->found) != FINE)
		return FAILED;
	return settle(check);
}

/* The names and what must be, of a vendor's image that reads; false after a message. */
static bool load_beside(struct check *check)
{
	return load_naming(check->options, &check->vendor, check->reading, &check->naming) &&
	       load_must(check->options->must, &check->vendor, check->reading, &check->naming,
			 &check->must);
}

/* The vendor's image read for what is asked: sheets, names and what must be are about settings, which a mending keeps. */
static uint32_t read_vendor(struct check *check)
{
	const struct bytes *vendor = &check->vendor.bytes;
	if (check->verify || is_mending(check) || check->options->names != NULL || check->options->must != NULL)
		return read_newer(vendor, check->reading);
	return pajurenda_read(vendor->at, vendor->length, check->reading, sizeof check->reading);
}

/* What is inside the vendor's image, its words by position; of edition 1 nothing is known. */
static enum status find_inside(struct check *check)
{
	const struct bytes *vendor = &check->vendor.bytes;
	check->contents.image = vendor;
	if (is_older(check->reading))
		return FINE;
	return load_contents(vendor, &check->contents) == FINE ? sort_words(&check->contents) : FAILED;
}

/* The library's answer on all of it; FAILED after a refusal, which is noted, or an error. */
enum status judge(struct check *check)
{
	const struct bytes *vendor = &check->vendor.bytes;
	const uint32_t own = read_vendor(check);
	if (own != PAJURENDA_ACCEPTED)
		return refuse_check(check, own, &check->vendor);
	if (find_inside(check) != FINE)
		return FAILED;
	if (shows_reference(check) && !copy_bytes(vendor, &check->reference))
		return fail_no_memory(check->vendor.name);
	if (!load_beside(check) ||
	    (check->verify ? judge_verify(check) : judge_audit(check)) != FINE)
		return FAILED;
	hold_must(&check->must, &check->shipped.bytes, count_of(check, PAJURENDA_AUDIT_BASE));
	return FINE;
}

/* ---- what came of it ---- */

/* A count of the audit against what the file should be. */
uint64_t count_of(const struct check *check, size_t field)
{
	return pajurenda_field(check->found.answer, field);
}

/* Explained by the library's word; or as released, with no byte that differs from the release; or mended, since what a
   mending leaves is explained. */
bool is_good(const struct check *check)
{
	if (check->number != PAJURENDA_ACCEPTED || is_mending(check))
		return check->number == PAJURENDA_ACCEPTED;
	return check->verify ? differences(&check->found) == 0 && is_at_base(check)
			     : count_of(check, PAJURENDA_AUDIT_EXPLAINED) == 1;
}

/* The file is at the base that it must be at, where one is demanded. */
bool is_at_base(const struct check *check)
{
	return !check->has_base || count_of(check, PAJURENDA_AUDIT_BASE) == check->base;
}

/* Good, and everything is there that must be. */
bool is_fine(const struct check *check)
{
	return is_good(check) && is_held(&check->must);
}

/* Some sheet was taken whoever released it. */
static bool is_unowned(const struct check *check)
{
	for (size_t i = 0; i < check->sheet_count; i++)
		if (check->releasers[i].list == NULL)
			return true;
	return false;
}

/* What nobody has asked of a check that is good, and how to ask it; NULL where there is nothing. */
const char *unchecked_of(const struct check *check)
{
	const bool must = check->must.file.name != NULL;
	if (!is_good(check))
		return NULL;
	if (is_older(check->reading))
		return older_not_checked;
	if (is_mending(check))
		return "whether the settings are the wanted ones; verify VENDOR SHEET.. OUT says it by the sheets, audit --must "
		       "FILE VENDOR OUT by a text";
	if (!check->verify)
		return must ? NULL : "whether the settings are the wanted ones; verify VENDOR SHEET.. SHIPPED says it "
				     "by the sheets, --must FILE by a text";
	const bool based = check->has_base || (must && !check->must.any_base);
	if (is_unowned(check))
		return based ? "whose the settings are; --owners LIST and --owner N before each sheet say it, or a "
			       "release's record"
			     : "whose the settings are, and the base; --owners LIST, --owner N before each sheet and "
			       "--base BASE say it, or a release's record";
	return based ? NULL : "the base; --base BASE demands one, as a release's record does";
}

/* The same in the verdict's words; an audit that explains says nothing more. */
const char *open_of(const struct check *check)
{
	const char *open = unchecked_of(check);
	if (open == NULL || !check->verify)
		return NULL;
	return !is_unowned(check) ? "base not checked"
	       : strstr(open, "base") == NULL ? "owners not checked" : "owners and base not checked";
}

/* The status of a check that was judged. */
enum status status_of(const struct check *check)
{
	if (check->number != PAJURENDA_ACCEPTED)
		return FAILED;
	return is_fine(check) ? FINE : UNEXPLAINED;
}

/* What must be is there or not; NULL where nothing was asked for. */
const char *required_of(const struct check *check)
{
	if (check->must.file.name == NULL || check->number != PAJURENDA_ACCEPTED)
		return NULL;
	return is_held(&check->must) ? "as required" : "not as required";
}

/* What the file was held against. */
const char *reference_name(const struct check *check)
{
	if (check->verify)
		return "the release";
	return is_older(check->reading) ? "the maker's image" : "the maker's image moved";
}

/* The verdict in words. */
const char *verdict_of(const struct check *check)
{
	if (check->number != PAJURENDA_ACCEPTED)
		return "refused";
	if (is_mending(check))
		return count_of(check, PAJURENDA_AUDIT_STRAYS) != 0 ? "mended" : "nothing to mend";
	if (check->verify)
		return is_good(check) ? "as released" : "not as released";
	return is_good(check) ? "explained" : "unexplained";
}
