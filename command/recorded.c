/* The files of a check by a release's record: found from the record's folder, and each held against its length and digest. */
#define _XOPEN_SOURCE 700

#include "loaded.h"

#include <inttypes.h>
#include <stdlib.h>
#include <string.h>
#include <unistd.h>

#include "files.h"
#include "inputs.h"
#include "messages.h"
#include "paths.h"
#include "vouched.h"

/* What a file or a result is of a record, up to why it isn't as recorded. */
static void begin_unrecorded(const struct check *check, size_t step, const char *what, const char *name)
{
	fputs("pajurenda: ", stderr);
	say_name(check->record.name);
	if (step != 0)
		fprintf(stderr, ": step %zu", step);
	fprintf(stderr, ": %s", what);
	if (name != NULL) {
		fputc(' ', stderr);
		say_name(name);
	}
}

/* The maker's image is another: whether it is one that the record's steps made, or at the base of the last. */
static void say_which(const struct check *check, const struct bytes *bytes, const char *digits)
{
	const struct record *record = &check->record;
	uint8_t reading[PAJURENDA_READ_BYTES] = { 0 };
	for (size_t i = 0; i < record->count; i++)
		if (strcmp(record->steps[i].result.digest, digits) == 0) {
			fprintf(stderr, "; it is what step %zu made", i + 1);
			return;
		}
	if (pajurenda_read(bytes->at, bytes->length, reading, sizeof reading) != PAJURENDA_ACCEPTED)
		return;
	const bool set = has_settings(record, bytes);
	if (set || pajurenda_field(reading, PAJURENDA_READ_BASE) == record->steps[record->count - 1].after)
		fprintf(stderr, "; it has the %s of the record's result, so it may be a released image",
			set ? "settings" : "base");
}

/* Where a record's file is: at its path from the record's folder, or by its last name beside the record. */
static const char *find_filed(struct check *check, const struct filed *filed)
{
	char *path = path_at(check->record.name, filed->name);
	if (path != NULL && access(path, F_OK) != 0) {
		char *beside = name_beside(check->record.name, last_name(filed->name));
		if (beside != NULL && access(beside, F_OK) == 0) {
			free(path);
			path = beside;
		} else {
			free(beside);
		}
	}
	check->paths[check->path_count] = path;
	return path == NULL ? filed->name : check->paths[check->path_count++];
}

/* A file of the record in memory, as it was recorded; false after a message. */
static bool load_filed(struct check *check, size_t step, const char *what, const struct filed *filed,
		       struct named *file)
{
	char digits[DIGEST_DIGITS + 1];
	file->name = find_filed(check, filed);
	if (!load(file->name, &file->bytes)) {
		begin_unrecorded(check, step, what, filed->name);
		fputs(" can't be had, so nothing was checked\n", stderr);
		return false;
	}
	if (is_filed_input(filed, &file->bytes, digits))
		return true;
	begin_unrecorded(check, step, what, file->name);
	fprintf(stderr, " isn't as recorded: SHA-256 %s, recorded %s", digits, filed->digest);
	if (step == 0)
		say_which(check, &file->bytes, digits);
	fputc('\n', stderr);
	return false;
}

/* One step's sheet and list. */
static bool load_step(struct check *check, size_t index)
{
	const struct step *step = &check->record.steps[index];
	struct owner_list *list = &check->lists[check->list_count++];
	struct bytes copy;
	check->releasers[index] = (struct releaser){ .list = list, .owner = step->owner };
	check->sheet_count++;
	if (!load_filed(check, index + 1, "the sheet", &step->sheet, &check->sheets[index]) ||
	    !load_filed(check, index + 1, "the owner list", &step->owners, &list->file))
		return false;
	if (copy_bytes(&list->file.bytes, &copy))
		return take_owners(list->file.name, &copy, &list->owners);
	fail_no_memory(list->file.name);
	return false;
}

/* The maker's image. */
static bool load_maker(struct check *check)
{
	check->vouched = with_ending(check->record.name, "");
	return load_filed(check, 0, "the maker's image", &check->record.maker, &check->vendor) &&
	       vouch_for(check->verify ? "verify" : "audit", check->options, &check->vendor, &check->vouched);
}

/* RECORD SHIPPED: the maker's image, and of a verify every step. */
bool load_recorded(struct check *check, const struct options *options)
{
	const struct record *record = &check->record;
	if (!room_for_sheets(check, record->count))
		return false;
	if (!check->verify)
		return load_maker(check);
	check->has_base = true;
	check->base = record->steps[record->count - 1].after;
	if ((options->given & (OWNERS | OWNER)) != 0) {
		fail_usage("verify", "a record has its own owners: --owners and --owner go with sheets", "", "");
		return false;
	}
	if (!take_wanted(check, options) || !load_maker(check))
		return false;
	for (size_t i = 0; i < record->count; i++)
		if (!load_step(check, i))
			return false;
	return true;
}

/* What the steps have made so far is the recorded result of this one; false after a message. */
bool hold_step(struct check *check, size_t index)
{
	const struct step *step = &check->record.steps[index];
	char digits[DIGEST_DIGITS + 1];
	if (is_filed(&step->result, &check->reference, digits))
		return true;
	begin_unrecorded(check, index + 1, "what it makes", NULL);
	fprintf(stderr, " isn't as recorded: SHA-256 %s, recorded %s\n", digits, step->result.digest);
	return false;
}

/* Which other image of the record a file is that isn't as released; NULL where it is none, or there is no record. */
const char *other_of(const struct check *check)
{
	static char other[64];
	const struct record *record = &check->record;
	char digits[DIGEST_DIGITS + 1];
	if (record->name == NULL || !check->verify || is_good(check) ||
	    !input_digest(&check->shipped.bytes, digits))
		return NULL;
	if (strcmp(digits, record->maker.digest) == 0)
		return "the record's maker's image";
	for (size_t i = 0; i < record->count; i++) {
		const char *form = strcmp(digits, record->steps[i].result.digest) == 0 ? "what step %zu of the record made"
				   : strcmp(digits, record->steps[i].replaced.digest) == 0
					   ? "what stood there before step %zu of the record" : NULL;
		if (form == NULL)
			continue;
		snprintf(other, sizeof other, form, i + 1);
		return other;
	}
	return NULL;
}
