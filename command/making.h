/* A text that says which image it is for, taken line by line: of a sheet, or of what must be. */
#ifndef COMMAND_MAKING_H
#define COMMAND_MAKING_H

#include "naming.h"
#include "released.h"
#include "sheets.h"
#include "text.h"
#include "written.h"

/* The text and the draft so far; the copy of the image is what the library sets when it is asked.
   What was set there before has no say in what it refuses. */
struct making {
	struct named image;
	struct text text;
	struct bytes copy;
	uint8_t reading[PAJURENDA_READ_BYTES];
	struct draft *draft;
	struct written *written; /* the line at hand */
	const struct naming *naming;
	unsigned parts; /* which parts the text has, as bits in their order */
};

/* A part of what a text is for: the word that names it, its place and its width in a sheet. */
struct part {
	const char *name;
	size_t at, width;
};

bool begin_making(struct making *m, const char *text, const struct bytes *bytes);
void end_making(struct making *m);
uint32_t ask(struct making *m);
void begin_line_refusal(uint32_t number, const struct text *text);
const struct part *find_part(const char *line);
enum status take_part(struct making *m, const struct part *part, char *rest);
enum status check_replaced(const struct making *m);
enum status want_parts(const struct making *m, const char *command);

#endif
