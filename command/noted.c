/* What is said of a check's files beside the verdict: the same bytes twice, a released image given as the maker's. */
#define _XOPEN_SOURCE 700

#include <stdio.h>
#include <stdlib.h>
#include <string.h>

#include "checking.h"
#include "messages.h"
#include "paths.h"
#include "vouched.h"

/* A note of texts one after the other, up to a NULL; false where there is no memory or room. */
static bool note(struct check *check, const char *const *texts)
{
	char *whole = with_ending("", "");
	for (; whole != NULL && *texts != NULL; texts++) {
		char *longer = with_ending(whole, *texts);
		free(whole);
		whole = longer;
	}
	if (whole == NULL || check->note_count == MOST_NOTES) {
		free(whole);
		return false;
	}
	check->notes[check->note_count++] = whole;
	return true;
}

/* Both have the same bytes. */
static bool are_equal(const struct named *one, const struct named *other)
{
	return one->bytes.length == other->bytes.length &&
	       memcmp(one->bytes.at, other->bytes.at, one->bytes.length) == 0;
}

/* VENDOR and SHIPPED, or two sheets, are the same bytes. */
static void note_same(struct check *check)
{
	if (are_equal(&check->vendor, &check->shipped))
		(void)note(check, (const char *const[]){ check->vendor.name, " and ", check->shipped.name,
							 " are the same bytes: the maker's image is compared with itself", NULL });
	for (size_t i = 0; i < check->sheet_count; i++)
		for (size_t k = 0; k < i; k++)
			if (are_equal(&check->sheets[k], &check->sheets[i])) {
				(void)note(check, (const char *const[]){ "the sheets ", check->sheets[k].name, " and ",
									 check->sheets[i].name, " are the same bytes", NULL });
				return;
			}
}

/* What a record that lies beside a file knows of the vendor's image. */
static void note_known(struct check *check, const struct record *record)
{
	const struct step *last = &record->steps[record->count - 1];
	char digits[DIGEST_DIGITS + 1];
	if (is_filed_input(&record->maker, &check->vendor.bytes, digits)) {
		if (check->vouched == NULL)
			check->vouched = with_ending(record->name, "");
		return;
	}
	for (size_t i = 0; i < record->count; i++)
		if (strcmp(digits, record->steps[i].result.digest) == 0) {
			(void)note(check, (const char *const[]){ check->vendor.name, " is given as the maker's image, but ",
								 record->name, " has made it: it is a released image", NULL });
			return;
		}
	const bool based = pajurenda_field(check->reading, PAJURENDA_READ_BASE) == last->after && last->after != record->base;
	const bool set = has_settings(record, &check->vendor.bytes);
	if (based || set)
		(void)note(check, (const char *const[]){ check->vendor.name, " is given as the maker's image, but isn't that of ",
							 record->name, ", and has ", based ? "the base" : "", based && set ? " and " : "",
							 set ? "the settings" : "", " of its result", NULL });
}

/* The record beside a file, where there is one. */
static void note_beside(struct check *check, const char *file)
{
	char *name = with_ending(file, RECORD_ENDING);
	struct record record = { .name = name };
	struct bytes bytes = { .at = NULL };
	if (name != NULL && load_quietly(name, &bytes) && is_record(&bytes) && take_record(name, &bytes, &record))
		note_known(check, &record);
	free_record(&record);
	free(bytes.at);
	free(name);
}

/* All that is to be said of the files of a check that was judged, or refused; a record has its own files. */
void note_files(struct check *check)
{
	if (check->record.name == NULL) {
		note_same(check);
		note_beside(check, check->vendor.name);
		if (check->note_count < MOST_NOTES && strcmp(check->vendor.name, check->shipped.name) != 0)
			note_beside(check, check->shipped.name);
	} else if (are_equal(&check->vendor, &check->shipped)) {
		(void)note(check, (const char *const[]){ check->shipped.name, " is the maker's image of the record", NULL });
	}
}

/* The same on standard error. */
void say_notes(const struct check *check)
{
	for (size_t i = 0; i < check->note_count; i++) {
		fprintf(stderr, "pajurenda: %s: ", command_of(check));
		say_name(check->notes[i]);
		fputc('\n', stderr);
	}
}
