/* The refusals of a check: which file each is about, and how it is told. */
#include <errno.h>

#include "checked.h"
#include "messages.h"
#include "released.h"

/* 18 of the shipped file: the base that stands at the vendor's place of it. */
static enum status refuse_its_base(struct check *check)
{
	find_agreed(check, NULL);
	begin_shipped_base(&check->shipped, pajurenda_field(check->reading, PAJURENDA_READ_HEADER) + 28);
	if (check->agreed.found) {
		fputs("; ", saying());
		put_agreed(saying(), check);
	}
	return end_refusal();
}

/* The release of one sheet, as it is asked for here: to the base of its step in a record, else at the vendor's own,
   since one move at the end is as good as one at each. */
struct asking ask_for(const struct check *check, size_t sheet)
{
	const struct releaser *releaser = &check->releasers[sheet];
	return (struct asking){ .image = &check->vendor,
				.sheet = &check->sheets[sheet],
				.base = check->record.name != NULL
						? check->record.steps[sheet].after
						: pajurenda_field(check->reading, PAJURENDA_READ_BASE),
				.owners = releaser->list == NULL ? NULL : &releaser->list->owners,
				.owner = releaser->owner };
}

/* A refusal of a release: of the sheet, or of the list that it goes by. */
static enum status refuse_sheet_here(struct check *check, uint32_t number, const struct named *sheet)
{
	const size_t index = (size_t)(sheet - check->sheets);
	const struct asking asking = ask_for(check, index);
	if (number == PAJURENDA_OWNERS && asking.owners != NULL)
		check->refused = &check->releasers[index].list->file;
	return refuse_release(number, &asking);
}

/* A refusal noted, and told as the command tells it everywhere. */
enum status refuse_check(struct check *check, uint32_t number, const struct named *file)
{
	uint8_t reading[PAJURENDA_READ_BYTES] = { 0 };
	const struct bytes *vendor = &check->vendor.bytes;
	if (number == PAJURENDA_SHORT)
		return fail_at("list of differences", ENOMEM);
	(void)pajurenda_read(vendor->at, vendor->length, reading, sizeof reading);
	check->number = number;
	check->index = pajurenda_field(reading, PAJURENDA_READ_INDEX);
	check->refused = file;
	if (file == &check->vendor)
		return refuse_image(number, check->index, file);
	if (file != &check->shipped)
		return refuse_sheet_here(check, number, file);
	if (number == PAJURENDA_PAIR)
		return refuse_pair(&check->vendor, file);
	return number == PAJURENDA_NEWBASE ? refuse_its_base(check) : fail_answer();
}
