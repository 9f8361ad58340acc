/* The measuring of speed.c. */
#define _POSIX_C_SOURCE 200809L

#include "timing.h"

#include <stdbool.h>
#include <stdint.h>
#include <stdio.h>
#include <time.h>

/* A run has so many seconds at least; a row has so many seconds, and goes on while one of the last runs was better. */
#define SHORTEST 0.002
#define LEAST_SECONDS 1.5
#define MOST_RUNS 2000u
#define BETTER 0.995

/* Seconds that the processor gave us: what a busy machine does meanwhile doesn't count. */
static double now(void)
{
	struct timespec at;
	clock_gettime(CLOCK_PROCESS_CPUTIME_ID, &at);
	return (double)at.tv_sec + (double)at.tv_nsec / 1e9;
}

/* Seconds for a number of calls. */
static double time_of(work *call, uint64_t count)
{
	const double from = now();
	for (uint64_t i = 0; i < count; i++)
		call();
	return now() - from;
}

/* How many calls make one measurement long enough. */
static uint64_t calls_for(work *call)
{
	uint64_t count = 1;
	while (time_of(call, count) < SHORTEST)
		count *= 2;
	return count;
}

/* One run of each work in turn; true where one was better than its best so far. */
static bool run_each(work *const *calls, const uint64_t *count, double *best, size_t works)
{
	bool better = false;
	for (size_t k = 0; k < works; k++) {
		const double one = time_of(calls[k], count[k]) / (double)count[k];
		better = better || one < BETTER * best[k];
		best[k] = one < best[k] ? one : best[k];
	}
	return better;
}

/* The best time of one call for each of up to three works; gives the number of runs. */
unsigned best_of(work *const *calls, double *best, size_t works)
{
	uint64_t count[4] = { 0 };
	unsigned runs = 0, quiet = 0;
	const double from = now();
	for (size_t k = 0; k < works; k++) {
		count[k] = calls_for(calls[k]);
		best[k] = 1e9;
	}
	while (runs < LEAST_RUNS ||
	       (runs < MOST_RUNS && (quiet < QUIET_RUNS || now() - from < LEAST_SECONDS))) {
		quiet = run_each(calls, count, best, works) ? 0 : quiet + 1;
		runs++;
	}
	return runs;
}

/* A time in a unit that can be read. */
void show_time(double seconds)
{
	if (seconds < 1e-6)
		printf(" %.0f ns |", seconds * 1e9);
	else if (seconds < 1e-3)
		printf(" %.1f µs |", seconds * 1e6);
	else
		printf(" %.2f ms |", seconds * 1e3);
}
