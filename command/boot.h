/* Boot logs: what a line says, and how a call is named. */
#ifndef COMMAND_BOOT_H
#define COMMAND_BOOT_H

#include <stdio.h>

#include "text.h"

/* What a line of a log is: no call but a comment, a call, a reset; or it can't be read. */
enum told { NOTHING_TOLD, CALL_TOLD, RESET_TOLD, NOT_READ };

/* A call as the library takes it; where the log has a name that nothing has, that word, and then the
   number that the name would have is 0, which nothing has either. The stamp is what stands before the call, a
   time in brackets or a number with a colon; its length is 0 where nothing does. */
struct call {
	uint64_t call, notification;
	const char *unknown, *stamp;
	size_t stamp_length;
};

enum told take_call(const struct text *text, char *line, struct call *call);
void show_call(FILE *to, const struct call *call);

#endif
