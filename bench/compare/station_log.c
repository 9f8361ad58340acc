/* The calls that compare_station.c puts into a log. */
#include "station_log.h"

#include "images.h"
#include "../second/station.h"

static const uint64_t phase[] = { 0x20, 0x40, 0xF0 };

/* A number near a known one, the known one with a higher bit, or any. */
static uint64_t drawn_near(uint64_t known)
{
	switch (below(6)) {
	case 0: return known - 1 + 2 * below(2);
	case 1: return known + (UINT64_C(1) << (8 + below(56)));
	case 2: return known << 32 | below(256);
	case 3: return any_number();
	case 4: return UINT64_MAX - below(256);
	default: return below(256);
	}
}

/* A call that isn't there: never 1..5. */
static uint64_t unknown_call(void)
{
	const uint64_t call = drawn_near(1 + below(5));
	return call >= TEMP_RAM_INIT && call <= NOTIFY_PHASE ? 6 * below(2) : call;
}

/* A notification that isn't there. */
static uint64_t unknown_notification(void)
{
	const uint64_t value = drawn_near(phase[below(3)]);
	return value == phase[0] || value == phase[1] || value == phase[2] ? 0 : value;
}

/* One call of a kind; what isn't looked at is anything. */
struct entry drawn_entry(unsigned symbol)
{
	struct entry one = { .call = symbol + 1, .symbol = symbol };
	one.notification = below(2) == 0 ? phase[below(3)] : unknown_notification();
	if (symbol >= NOTIFICATIONS)
		one.call = symbol == BAD_CALL ? unknown_call() : NOTIFY_PHASE;
	if (symbol >= NOTIFICATIONS && symbol < BAD_NOTIFICATION)
		one.notification = phase[symbol - NOTIFICATIONS];
	if (symbol == BAD_NOTIFICATION)
		one.notification = unknown_notification();
	return one;
}
