#include "station.h"

#include <stdbool.h>
#include <stddef.h>

/* #108: the notifications that there are. */
#define PHASE_FIRST 0x20
#define PHASE_SECOND 0x40
#define PHASE_THIRD 0xF0

/* #108: every call that is in order, and where it leads; 0 where a call has no notification. */
static const struct {
	uint64_t state, call, notification, next;
} in_order[] = {
	{ AT_RESET, TEMP_RAM_INIT, 0, MEMORY_DUE },
	{ AT_RESET, MEMORY_INIT, 0, SILICON_DUE },
	{ MEMORY_DUE, MEMORY_INIT, 0, EXIT_DUE },
	{ EXIT_DUE, TEMP_RAM_EXIT, 0, SILICON_DUE },
	{ SILICON_DUE, SILICON_INIT, 0, FIRST_DUE },
	{ FIRST_DUE, NOTIFY_PHASE, PHASE_FIRST, SECOND_DUE },
	{ SECOND_DUE, NOTIFY_PHASE, PHASE_SECOND, THIRD_DUE },
	{ THIRD_DUE, NOTIFY_PHASE, PHASE_THIRD, NOTHING_DUE },
};

/* Refusal 41: a call that isn't there, or a notification that isn't. */
static bool refuse_unknown(uint64_t call, uint64_t notification)
{
	if (call != NOTIFY_PHASE)
		return call < TEMP_RAM_INIT || call > NOTIFY_PHASE;
	return notification != PHASE_FIRST && notification != PHASE_SECOND && notification != PHASE_THIRD;
}

/* 41, then 40 for what no row has; a state that is none of ours has no row at all. */
struct second_stepped second_station(uint64_t state, uint64_t call, uint64_t notification)
{
	const uint64_t looked_at = call == NOTIFY_PHASE ? notification : 0;
	if (refuse_unknown(call, notification))
		return (struct second_stepped){ .number = 41, .state = state };
	for (size_t i = 0; i < sizeof in_order / sizeof in_order[0]; i++)
		if (in_order[i].state == state && in_order[i].call == call && in_order[i].notification == looked_at)
			return (struct second_stepped){ .state = in_order[i].next };
	return (struct second_stepped){ .number = 40, .state = state };
}
