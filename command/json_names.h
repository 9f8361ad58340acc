/* Names and values in JSON. */
#ifndef COMMAND_JSON_NAMES_H
#define COMMAND_JSON_NAMES_H

#include "changes.h"
#include "naming.h"

void json_naming(const struct naming *naming);
void json_names(const struct names *names, const struct change *change, const char *old,
		const char *new);

#endif
