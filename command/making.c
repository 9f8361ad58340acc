/* What texts that are for one image share: the draft that the library is asked about. */
#include "making.h"

#include <stdio.h>
#include <stdlib.h>

#include "files.h"
#include "messages.h"

/* The draft's memory and the image's copy, for an image that reads; false after a message. */
bool begin_making(struct making *m, const char *text, const struct bytes *bytes)
{
	m->text = text_of(text, bytes);
	m->draft = calloc(1, sizeof *m->draft);
	m->written = calloc(1, sizeof *m->written);
	if (m->draft == NULL || m->written == NULL || !copy_bytes(&m->image.bytes, &m->copy)) {
		fail_no_memory(m->image.name);
		return false;
	}
	pajurenda_empty_sheet(m->reading, m->draft->head);
	return true;
}

/* That memory back. */
void end_making(struct making *m)
{
	free(m->copy.at);
	free(m->written);
	free(m->draft);
}

/* The library's answer for the draft as it is. */
uint32_t ask(struct making *m)
{
	uint8_t answer[PAJURENDA_RELEASE_BYTES] = { 0 };
	const struct bytes sheet = lay_out(m->draft);
	return release_by_one(&m->copy, &sheet,
			      pajurenda_field(m->reading, PAJURENDA_READ_BASE), answer);
}

/* A refusal of the line at hand, up to its values. */
void begin_line_refusal(uint32_t number, const struct text *text)
{
	begin_refusal(number, text->name);
	say_rule(number);
	fprintf(saying(), "line %zu: ", text->line);
}
