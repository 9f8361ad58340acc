/* What an audit found: its answer, and the list of every place that differs. */
#ifndef COMMAND_FINDINGS_H
#define COMMAND_FINDINGS_H

#include "command.h"
#include "pajurenda.h"

struct findings {
	uint8_t *places;
	uint8_t answer[PAJURENDA_AUDIT_BYTES];
};

uint32_t find_differences(const struct bytes *vendor, const struct bytes *shipped,
			  struct findings *findings);
uint64_t differences(const struct findings *findings);

#endif
