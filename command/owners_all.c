/* owners all IMAGE OUT: the list, as text, that gives every setting to owner 1. */
#include <inttypes.h>
#include <stdio.h>
#include <stdlib.h>

#include "files.h"
#include "json.h"
#include "messages.h"
#include "trial.h"
#include "whose.h"

/* The text that says how to go on with it, then the range if there is one. */
static const char form[] =
	"# Whose the settings are. A line has a range of the configuration region: its offset,\n"
	"# its length, its owner (1 or 2); by ascending offset, within %s.\n"
	"# A byte in no range is nobody's: no release sets it.\n"
	"%s";

/* The list of an accepted reading as a text; its length, as snprintf has it. */
static int write_text(const struct bytes *list, uint64_t size, char *text, size_t room)
{
	char settings[64] = "no offset at all, as there are no settings", line[64] = "";
	if (count_ranges(list) > 0) {
		const struct owned range = range_at(list, 0);
		snprintf(settings, sizeof settings, "offsets 0x0020 to 0x%04" PRIX64, size - 1);
		snprintf(line, sizeof line, "0x%04" PRIX64 " %" PRIu64 " %" PRIu64 "\n", range.offset,
			 range.length, range.owner);
	}
	return snprintf(text, room, form, settings, line);
}

/* The list of the image on trial, which the library must take, saved. */
static enum status save_all(struct trial *trial, const char *out)
{
	uint8_t range[PAJURENDA_RANGE_BYTES];
	char text[512];
	const struct bytes list = { .at = range,
				    .length = pajurenda_one_owner(trial->reading, 1, range) };
	if (try_list(trial, &list, 1) != PAJURENDA_ACCEPTED)
		return fail_answer();
	const int length = write_text(&list, pajurenda_field(trial->reading, PAJURENDA_READ_SIZE), text,
				      sizeof text);
	const struct bytes file = { .at = (uint8_t *)text, .length = (size_t)length };
	if (length < 0 || (size_t)length >= sizeof text)
		return fail_answer();
	if (!save(out, &file))
		return FAILED;
	if (is_json()) {
		begin_document();
		json_text("out", out);
		json_answer(PAJURENDA_ACCEPTED, 0);
		write_shares(&list, trial->reading);
		end_json();
		return FINE;
	}
	show_region(trial->reading, "");
	show_shares(&list, trial->reading, "");
	return FINE;
}

/* owners all IMAGE OUT */
enum status do_owners_all(char **word, const struct options *options)
{
	struct named image = { .name = word[0] };
	struct trial trial;
	enum status status = FAILED;
	(void)options;
	if (is_same_file(image.name, word[1]))
		return fail_lost("owners all", "IMAGE");
	if (!is_free(word[1]) || !load(image.name, &image.bytes))
		return FAILED;
	if (begin_trial(&image, &trial)) {
		status = save_all(&trial, word[1]);
		free(trial.copy.at);
	}
	free(image.bytes.at);
	return status;
}
