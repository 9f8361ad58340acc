/* A lane of a map, and what is drawn in it. */
#ifndef COMMAND_PAGE_LANE_H
#define COMMAND_PAGE_LANE_H

#include <stdint.h>
#include <stdio.h>

/* A lane being drawn: the stretch it shows, and the mark that isn't written yet. */
struct lane {
	FILE *to;
	uint64_t start, length;
	uint64_t first, last, ranges; /* of that mark; no ranges, no mark */
};

struct lane begin_lane(FILE *to, const char *class, const char *name, uint64_t start, uint64_t length);
void put_box(const struct lane *lane, const char *class, uint64_t first, uint64_t last);
void mark_lane(struct lane *lane, uint64_t first, uint64_t last);
void end_lane(struct lane *lane);
void put_scale(FILE *to, uint64_t start, uint64_t length);

#endif
