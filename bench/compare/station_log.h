/* The calls that compare_station.c puts into a log. */
#ifndef PAJURENDA_STATION_LOG_H
#define PAJURENDA_STATION_LOG_H

#include <stdint.h>

/* What a log can have: calls 1..4, a notification of the three, one that isn't there, a call that isn't there. */
enum { NOTIFICATIONS = 4, BAD_NOTIFICATION = 7, BAD_CALL = 8, SYMBOLS = 9 };

/* One call of a log, and its kind. */
struct entry {
	uint64_t call, notification;
	unsigned symbol;
};

/* One call of a kind, unknown numbers being drawn from all of 64 bits; what isn't looked at is anything. */
struct entry drawn_entry(unsigned symbol);

#endif
