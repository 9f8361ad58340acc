/* The second reader of a boot log: request #108, written apart from the library. */
#ifndef BENCH_SECOND_STATION_H
#define BENCH_SECOND_STATION_H

#include <stdint.h>

/* The calls by number. */
enum second_call {
	TEMP_RAM_INIT = 1,
	MEMORY_INIT = 2,
	TEMP_RAM_EXIT = 3,
	SILICON_INIT = 4,
	NOTIFY_PHASE = 5,
};

/* What the next call has to be; a reset leads to the first. The numbers are ours, nobody else's. */
enum second_state {
	AT_RESET = 0,  /* TempRamInit or MemoryInit */
	MEMORY_DUE,    /* MemoryInit, after TempRamInit */
	EXIT_DUE,      /* TempRamExit, as TempRamInit was called */
	SILICON_DUE,   /* SiliconInit */
	FIRST_DUE,     /* notification 0x20 */
	SECOND_DUE,    /* notification 0x40 */
	THIRD_DUE,     /* notification 0xF0 */
	NOTHING_DUE,   /* nothing any more */
	SECOND_STATES
};

/* Number 0 and the state after the call; or 41 or 40, and the state that was. */
struct second_stepped {
	uint64_t number, state;
};

/* One call in a state. The notification is looked at for NotifyPhase alone. */
struct second_stepped second_station(uint64_t state, uint64_t call, uint64_t notification);

#endif
