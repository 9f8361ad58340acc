/* The files of a check: named on the command line, or by a release's record, each then held against it. */
#include "loaded.h"

#include <inttypes.h>
#include <stdlib.h>
#include <string.h>

#include "checking.h"
#include "files.h"
#include "messages.h"
#include "numbers.h"
#include "paths.h"
#include "vouched.h"

/* ---- the words ---- */

/* How many names there are. */
static size_t count_names(char **word)
{
	size_t count = 0;
	while (word[count] != NULL)
		count++;
	return count;
}

/* Room for so many sheets; false after a message. */
bool room_for_sheets(struct check *check, size_t sheets)
{
	check->sheets = calloc(sheets + 1, sizeof *check->sheets);
	check->releasers = calloc(sheets + 1, sizeof *check->releasers);
	check->lists = calloc(sheets + 1, sizeof *check->lists);
	check->paths = calloc(2 * sheets + 2, sizeof *check->paths);
	if (check->sheets != NULL && check->releasers != NULL && check->lists != NULL && check->paths != NULL)
		return true;
	fail_no_memory(check->shipped.name);
	return false;
}

/* An owner list; the file's own bytes stay as they are, for its digest. False after a message. */
static bool load_list(struct owner_list *list)
{
	struct bytes copy;
	if (!load(list->file.name, &list->file.bytes))
		return false;
	if (!copy_bytes(&list->file.bytes, &copy)) {
		fail_no_memory(list->file.name);
		return false;
	}
	return take_owners(list->file.name, &copy, &list->owners);
}

/* ---- by sheets ---- */

/* Which of the --owner options is a sheet's: the last before it; the only one also where it stands after all. */
static const struct owner_at *owner_of(const struct options *options, size_t sheet, size_t count)
{
	const struct owner_at *found = NULL;
	for (size_t i = 0; i < options->owner_count; i++)
		if (options->owner_at[i].words <= sheet + 1)
			found = &options->owner_at[i];
	if (found == NULL && options->owner_count == 1 && options->owner_at[0].words > count)
		found = options->owner_at;
	return found;
}

/* Each --owner is for a sheet, where there are several; false after a message. */
static bool are_owners_used(const struct options *options, size_t count)
{
	for (size_t i = 0; options->owner_count > 1 && i < options->owner_count; i++) {
		const size_t words = options->owner_at[i].words, from = words < 1 ? 1 : words;
		const size_t next = i + 1 < options->owner_count ? options->owner_at[i + 1].words : count + 1;
		if (from < next && from <= count)
			continue;
		fail_usage("verify", "--owner ", options->owner_at[i].value, " stands before no sheet");
		return false;
	}
	return true;
}

/* Who released each sheet, by the list that is named for all; false after a message. */
static bool take_releasers(struct check *check, const struct options *options)
{
	if (options->owners == NULL)
		return true;
	if (!are_owners_used(options, check->sheet_count))
		return false;
	check->lists[0].file.name = options->owners;
	check->list_count = 1;
	for (size_t i = 0; i < check->sheet_count; i++) {
		const struct owner_at *owner = owner_of(options, i, check->sheet_count);
		check->releasers[i].list = &check->lists[0];
		if (owner == NULL) {
			fail_usage("verify", "no --owner stands before ", check->sheets[i].name,
				   ": --owner N goes before each sheet that it is for, or once for all");
			return false;
		}
		if (!take_number("verify", "--owner", owner->value, &check->releasers[i].owner))
			return false;
	}
	return load_list(&check->lists[0]);
}

/* The base that the file must be at, where one is demanded; false after a message. */
bool take_wanted(struct check *check, const struct options *options)
{
	struct base base = { .keep = false };
	if (options->base == NULL)
		return true;
	if (!take_base("verify", options->base, &base))
		return false;
	if (base.keep) {
		fail_usage("verify", "--base has no keep: write the base that the file must be at, as 0x00512000", "", "");
		return false;
	}
	if (check->has_base && check->base != base.value) {
		char after[60];
		snprintf(after, sizeof after, " is not the base of the record, 0x%08" PRIX64, check->base);
		fail_usage("verify", "--base ", options->base, after);
		return false;
	}
	check->has_base = true;
	check->base = base.value;
	return true;
}

/* VENDOR SHIPPED, or VENDOR SHEET.. SHIPPED. */
static bool load_named(struct check *check, char **word, const struct options *options)
{
	const size_t sheets = count_names(word) - 2;
	check->vendor.name = word[0];
	if (!room_for_sheets(check, sheets) || !take_wanted(check, options))
		return false;
	check->sheet_count = sheets;
	for (size_t i = 0; i < sheets; i++)
		check->sheets[i].name = word[i + 1];
	if (check->vendor.bytes.at == NULL && !load(check->vendor.name, &check->vendor.bytes))
		return false;
	if (!vouch_for(command_of(check), options, &check->vendor, &check->vouched))
		return false;
	for (size_t i = 0; i < sheets; i++)
		if (!load(check->sheets[i].name, &check->sheets[i].bytes))
			return false;
	return take_releasers(check, options);
}

/* ---- either ---- */

/* The first of two words is a record: of a verify it must be, of an audit it may. */
static bool takes_record(struct check *check, char **word, bool *taken)
{
	struct bytes bytes;
	*taken = false;
	if (count_names(word) != 2)
		return true;
	if (!load(word[0], &bytes))
		return false;
	*taken = is_record(&bytes);
	if (*taken) {
		const bool good = take_record(word[0], &bytes, &check->record);
		check->record.text = bytes;
		return good;
	}
	check->vendor.bytes = bytes;
	if (!check->verify)
		return true;
	fail_usage("verify", "", word[0], " is no release record, and without one three words or more are wanted: VENDOR "
		   "SHEET.. SHIPPED");
	return false;
}

/* RECORD SHIPPED, VENDOR SHIPPED, or VENDOR SHEET.. SHIPPED, in memory; false after a message. */
bool load_check(struct check *check, bool verify, char **word, const struct options *options)
{
	bool recorded = false;
	*check = (struct check){ .verify = verify, .options = options };
	check->shipped.name = word[count_names(word) - 1];
	return takes_record(check, word, &recorded) &&
	       (recorded ? load_recorded(check, options) : load_named(check, word, options)) &&
	       load(check->shipped.name, &check->shipped.bytes);
}

/* All memory back. */
void end_check(struct check *check)
{
	for (size_t i = 0; check->sheets != NULL && i < check->sheet_count; i++)
		free(check->sheets[i].bytes.at);
	for (size_t i = 0; check->lists != NULL && i < check->list_count; i++) {
		free_owners(&check->lists[i].owners);
		free(check->lists[i].file.bytes.at);
	}
	for (size_t i = 0; check->paths != NULL && i < check->path_count; i++)
		free(check->paths[i]);
	free(check->sheets);
	free(check->releasers);
	free(check->lists);
	free(check->paths);
	for (size_t i = 0; i < check->note_count; i++)
		free(check->notes[i]);
	free(check->vouched);
	free_record(&check->record);
	end_must(&check->must);
	end_naming(&check->naming);
	free(check->vendor.bytes.at);
	free(check->shipped.bytes.at);
	free(check->reference.at);
	free(check->found.places);
	free(check->from_vendor.places);
	free(check->settled);
	free(check->mended.bytes.at);
	free(check->hex.bytes.at);
	free_contents(&check->contents);
}
