/* owners show LIST IMAGE: a list as the text that --owners takes; what is nobody's stands in comments. */
#include <inttypes.h>
#include <stdio.h>
#include <stdlib.h>

#include "files.h"
#include "json.h"
#include "json_names.h"
#include "messages.h"
#include "naming.h"
#include "trial.h"
#include "whose.h"

/* Where a range lies in the image, first and last position. */
static void show_at(uint64_t region, uint64_t offset, uint64_t length)
{
	printf("at %" PRIu64 "..%" PRIu64 "\n", region + offset, region + offset + length - 1);
}

/* Offsets from one up to another, if there are any, are in no range. */
static void show_gap(uint64_t region, uint64_t from, uint64_t to)
{
	if (from >= to)
		return;
	printf("# 0x%04" PRIX64 " %" PRIu64 " nobody ", from, to - from);
	show_at(region, from, to - from);
}

/* The names that a range has bytes of, in comments; that it has only a part of one is told. */
static void show_owned_names(const struct names *names, const struct owned *range)
{
	const uint64_t end = range->offset + range->length;
	const struct label *label;
	uint64_t at = range->offset;
	while (ferror(stdout) == 0 && (label = next_name(names, &at, end)) != NULL) {
		printf("#   0x%04" PRIX32 " %" PRIu32 " ", label->offset, label->length);
		names_put_label(stdout, label);
		puts(label->offset < range->offset || at > end ? ", in part" : "");
	}
}

/* Every range and every gap of a list that the library took, in order. */
static void show_owned(const struct bytes *list, const uint8_t *reading, const struct naming *naming)
{
	const uint64_t region = pajurenda_field(reading, PAJURENDA_READ_REGION);
	uint64_t end = 32;
	put_naming(stdout, "# ", naming);
	show_region(reading, "# ");
	for (size_t i = 0; i < count_ranges(list) && ferror(stdout) == 0; i++) {
		const struct owned range = range_at(list, i);
		show_gap(region, end, range.offset);
		printf("0x%04" PRIX64 " %" PRIu64 " %" PRIu64 " # ", range.offset, range.length,
		       range.owner);
		show_at(region, range.offset, range.length);
		show_owned_names(names_of(naming), &range);
		end = range.offset + range.length;
	}
	show_gap(region, end, pajurenda_field(reading, PAJURENDA_READ_SIZE));
	show_shares(list, reading, "# ");
}

/* Its document. */
static void write_owned(const struct owners *owners, const struct named *image, const uint8_t *reading,
			const struct naming *naming)
{
	begin_document();
	json_text("list", owners->name);
	json_text("image", image->name);
	json_answer(PAJURENDA_ACCEPTED, 0);
	json_naming(naming);
	write_shares(&owners->list, reading);
	end_json();
}

/* A loaded list judged on a copy of a loaded image, whoever asks, and shown. */
static enum status show_owners(const struct named *image, const struct owners *owners,
			       const struct options *options)
{
	struct naming naming = { .file = { .name = NULL } };
	const struct asking asking = { .image = image, .owners = owners, .owner = 1 };
	struct trial trial;
	if (!begin_trial(image, &trial))
		return FAILED;
	const uint32_t number = try_list(&trial, &owners->list, 1);
	free(trial.copy.at);
	if (number == PAJURENDA_OWNERS)
		return refuse_list(&asking);
	if (number != PAJURENDA_ACCEPTED)
		return fail_answer();
	const bool named = load_naming(options, image, trial.reading, &naming);
	if (named && is_json())
		write_owned(owners, image, trial.reading, &naming);
	else if (named)
		show_owned(&owners->list, trial.reading, &naming);
	end_naming(&naming);
	return named ? FINE : FAILED;
}

/* owners show [--names FILE] LIST IMAGE */
enum status do_owners_show(char **word, const struct options *options)
{
	struct owners owners = { .name = word[0] };
	struct named image = { .name = word[1] };
	enum status status = FAILED;
	if (load_owners(owners.name, &owners) && load(image.name, &image.bytes))
		status = show_owners(&image, &owners, options);
	free(image.bytes.at);
	free_owners(&owners);
	return status;
}
