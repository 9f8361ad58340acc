/* sheet empty IMAGE OUT: the sheet that sets nothing, with which a release only moves. */
#include <stdlib.h>

#include "edition.h"
#include "files.h"
#include "messages.h"
#include "released.h"
#include "sheets.h"

/* The empty sheet of a loaded image, which the library must take, saved. */
static enum status save_empty(struct named *image, const char *out)
{
	uint8_t reading[PAJURENDA_READ_BYTES] = { 0 };
	uint8_t empty[PAJURENDA_EMPTY_SHEET], answer[PAJURENDA_RELEASE_BYTES];
	const struct bytes sheet = { .at = empty, .length = sizeof empty };
	const uint32_t number = read_newer(&image->bytes, reading);
	if (number != PAJURENDA_ACCEPTED)
		return refuse_image(number, pajurenda_field(reading, PAJURENDA_READ_INDEX), image);
	if (!move_alone(&image->bytes, pajurenda_field(reading, PAJURENDA_READ_BASE), answer))
		return fail_answer();
	pajurenda_empty_sheet(reading, empty);
	return save_sheet(out, &sheet, NULL, &image->bytes);
}

/* sheet empty IMAGE OUT */
enum status do_sheet_empty(char **word, const struct options *options)
{
	struct named image = { .name = word[0] };
	(void)options;
	if (is_same_file(image.name, word[1]))
		return fail_lost("sheet empty", "IMAGE");
	if (!is_free(word[1]) || !load(image.name, &image.bytes))
		return FAILED;
	const enum status status = save_empty(&image, word[1]);
	free(image.bytes.at);
	return status;
}
