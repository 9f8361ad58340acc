/* The measuring of speed.c: the best of many runs, in processor time of our own. */
#ifndef PAJURENDA_TIMING_H
#define PAJURENDA_TIMING_H

#include <stddef.h>

/* A row has so many runs at least, and ends after so many in a row that were no better. */
#define LEAST_RUNS 25u
#define QUIET_RUNS 12u

/* One call. */
typedef void work(void);

/* The best time of one call for each of up to four works; gives the number of runs. */
unsigned best_of(work *const *calls, double *best, size_t works);

/* A time in a unit that can be read, as a cell of a table. */
void show_time(double seconds);

#endif
