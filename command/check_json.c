/* audit --json, verify --json and mend --json: the whole check as one document. */
#include "checking.h"
#include "forms.h"

#include <inttypes.h>
#include <stdio.h>

#include "edition.h"
#include "fields.h"
#include "inside.h"
#include "json.h"
#include "json_names.h"
#include "letters.h"
#include "mending.h"
#include "ranges.h"
#include "show.h"
#include "signs.h"

/* A range's bytes in a file. */
static void write_bytes(const char *name, const struct bytes *file, const struct range *range)
{
	printf(", \"%s\": ", name);
	if (has_bytes(file, range->first, length_of(range)))
		json_bytes(file->at + range->first, length_of(range));
	else
		fputs("null", stdout);
}

/* Which entry sets a setting last. */
static void write_set(const struct range *range)
{
	fputs(", \"set_by\": ", stdout);
	if (range->stray || range->set.sheet == 0)
		fputs("null", stdout);
	else
		printf("{\"sheet\": %" PRIu32 ", \"entry\": %" PRIu32 "}", range->set.sheet - 1,
		       range->set.entry);
}

/* Of a verify: which entry sets a setting, and whether the file has the maker's bytes. */
static void write_setter(const struct range *range)
{
	write_set(range);
	printf(", \"makers\": %s", !range->stray && !range->set.changed ? "true" : "false");
}

/* Which word it is, and the module that holds the range. */
static void write_lying(const struct ranges *ranges, const struct lying *where)
{
	if (where->room == PATCH_WORD || where->room == RELOCATION_WORD || where->room == IN_VOLUME)
		printf(", \"index\": %" PRIu64, where->index);
	else
		fputs(", \"index\": null", stdout);
	fputs(where->room == TABLES ? ", \"field\": \"" : ", \"field\": null", stdout);
	if (where->room == TABLES) {
		put_field(stdout, where->index);
		putchar('"');
	}
	if (where->module == NO_MODULE) {
		fputs(", \"module\": null, \"module_name\": null, \"file\": null", stdout);
		return;
	}
	printf(", \"module\": %" PRIu64 ", \"module_name\": ", where->module);
	json_module_name(ranges->map.contents, where->module);
	fputs(", \"file\": \"", stdout);
	show_guid(stdout, guid_of(ranges->map.contents, where->module));
	putchar('"');
}

/* The same members for every range; offset, index, field, module, its name and file are null where there is none. */
static void write_range(const struct ranges *ranges, const struct range *range, const char *before)
{
	const struct check *check = ranges->check;
	struct change change;
	printf("%s\n    {\"kind\": \"%s\", \"first\": %" PRIu64 ", \"last\": %" PRIu64, before,
	       range->stray ? "stray" : "setting", range->first, range->last);
	printf(", \"length\": %" PRIu64 ", \"place\": \"%s\", \"offset\": ", length_of(range),
	       range->where.room == SETTINGS ? "settings" : name_room(range->where.room));
	if (range->where.room == SETTINGS)
		printf("%" PRIu64, range->first - ranges->map.region);
	else
		fputs("null", stdout);
	write_lying(ranges, &range->where);
	write_bytes("should", &check->reference, range);
	write_bytes("is", &check->shipped.bytes, range);
	if (check->verify)
		write_setter(range);
	if (range_change(ranges, range, &change))
		json_names(names_of(&check->naming), &change, "should", "is");
	else
		fputs(", \"names\": null", stdout);
	putchar('}');
}

/* Every range, until one can't be written. */
static void write_ranges(const struct check *check)
{
	struct ranges ranges;
	struct range range;
	const char *before = "";
	start_ranges(&ranges, check);
	fputs(",\n  \"ranges\": [", stdout);
	while (ferror(stdout) == 0 && next_range(&ranges, &range)) {
		write_range(&ranges, &range, before);
		before = ",";
	}
	printf("%s]", *before == 0 ? "" : "\n  ");
}

/* Who released a sheet, and by which list; null where whose the settings are had no say. */
static void write_releaser(const struct releaser *releaser)
{
	if (releaser->list == NULL) {
		fputs(", \"owners\": null, \"owner\": null", stdout);
		return;
	}
	fputs(", \"owners\": ", stdout);
	put_json_text(stdout, releaser->list->file.name);
	printf(", \"owner\": %" PRIu64, releaser->owner);
}

/* Every setting that isn't the maker's any more, and who set it; null in an audit. */
static void write_changed(const struct check *check)
{
	struct ranges ranges;
	struct range range;
	const char *before = "";
	fputs(check->verify ? ",\n  \"changed\": [" : ",\n  \"changed\": null", stdout);
	if (!check->verify)
		return;
	start_changes(&ranges, check);
	while (ferror(stdout) == 0 && next_range(&ranges, &range)) {
		if (range.stray)
			continue;
		printf("%s\n    {\"offset\": %" PRIu64 ", \"place\": %" PRIu64 ", \"length\": %" PRIu64, before,
		       range.first - ranges.map.region, range.first, length_of(&range));
		write_bytes("makers", &check->vendor.bytes, &range);
		write_bytes("is", &check->shipped.bytes, &range);
		write_set(&range);
		putchar('}');
		before = ",";
	}
	printf("%s]", *before == 0 ? "" : "\n  ");
}

/* The sheets by name, in the order they were applied. */
static void write_sheets(const struct check *check)
{
	fputs(",\n  \"sheets\": [", stdout);
	for (size_t i = 0; i < check->sheet_count; i++) {
		fputs(i == 0 ? "\n    {\"file\": " : ",\n    {\"file\": ", stdout);
		put_json_text(stdout, check->sheets[i].name);
		printf(", \"length\": %zu", check->sheets[i].bytes.length);
		if (check->number == PAJURENDA_ACCEPTED)
			printf(", \"entries\": %" PRIu64, number_at(&check->sheets[i].bytes, 12, 2));
		write_releaser(&check->releasers[i]);
		putchar('}');
	}
	fputs("\n  ]", stdout);
}

/* The owner list and who released by it, where one is for all sheets; null where none is. */
static void write_owner(const struct check *check)
{
	const struct releaser *first = &check->releasers[0];
	bool one = check->sheet_count > 0 && first->list != NULL;
	for (size_t i = 1; i < check->sheet_count; i++)
		one = one && check->releasers[i].list == first->list && check->releasers[i].owner == first->owner;
	json_text("owners", one ? first->list->file.name : NULL);
	if (one)
		json_number("owner", first->owner);
	else
		json_text("owner", NULL);
}

/* What an accepted check found. */
static void write_found(const struct check *check)
{
	json_naming(&check->naming);
	json_number("edition", pajurenda_edition(check->reading));
	json_hex("base", 8, count_of(check, PAJURENDA_AUDIT_BASE));
	if (check->has_base)
		json_hex("base_wanted", 8, check->base);
	else
		json_text("base_wanted", NULL);
	if (is_older(check->reading))
		json_text("move", NULL);
	else
		json_signed("move", pajurenda_signed_field(check->moved, PAJURENDA_RELEASE_MOVE));
	json_text("against", reference_name(check));
	json_number("settings", count_of(check, PAJURENDA_AUDIT_SETTINGS));
	json_number("strays", count_of(check, PAJURENDA_AUDIT_STRAYS));
	json_number("bits", count_of(check, PAJURENDA_AUDIT_BITS));
	write_ranges(check);
	write_changed(check);
	json_text("other", other_of(check));
	json_must(&check->must);
	if (is_mending(check))
		write_mended(check);
	if (check->verify)
		printf(",\n  \"accounted\": %s", is_accounted(check) ? "true" : "false");
}

/* What is said of the files on standard error. */
static void write_notes(const struct check *check)
{
	fputs(",\n  \"notes\": [", stdout);
	for (size_t i = 0; i < check->note_count; i++) {
		fputs(i == 0 ? "" : ", ", stdout);
		put_json_text(stdout, check->notes[i]);
	}
	putchar(']');
}

/* The base that most words agree on where the base word is damaged; null where it isn't. */
static void write_agreed(const struct agreed *agreed)
{
	if (agreed->found)
		printf(",\n  \"agreed\": {\"base\": \"0x%08" PRIX32 "\", \"words\": %" PRIu64 ", \"of\": %" PRIu64 "}",
		       agreed->base, agreed->agreeing, agreed->words);
	else
		json_text("agreed", NULL);
}

/* The whole document, of a refused check too. */
enum status write_check(const struct check *check)
{
	const bool refused = check->number != PAJURENDA_ACCEPTED;
	begin_json(command_of(check));
	json_text("vendor", check->vendor.name);
	json_text("vouched", check->vouched);
	json_text("record", check->record.name);
	if (check->verify) {
		write_sheets(check);
		write_owner(check);
	}
	json_text("shipped", check->shipped.name);
	if (is_mending(check)) {
		json_text("out", check->mended.name);
		json_text("hex", check->hex.name);
	}
	json_text("report_number", check->options->number);
	json_text("note", check->options->note);
	write_notes(check);
	write_agreed(&check->agreed);
	json_answer(check->number, check->index);
	if (refused)
		json_text("refused", check->refused->name);
	else
		write_found(check);
	json_text("required", required_of(check));
	json_text("not_checked", unchecked_of(check));
	json_text("verdict", verdict_of(check));
	end_json();
	return status_of(check);
}
