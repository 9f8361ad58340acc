/* The lanes of the page's maps: a stretch of the image drawn to scale, its marks by ascending position. */
#include "page_lane.h"

#include <inttypes.h>

/* A lane is so many columns wide: no map has more marks than that. */
#define COLUMNS ((uint64_t)1000)

/* A lane's name, and the start of its drawing. */
struct lane begin_lane(FILE *to, const char *class, const char *name, uint64_t start,
			      uint64_t length)
{
	fprintf(to, "<div class=\"lane\"><div class=\"name\">%s</div><svg class=\"%s\" "
		"viewBox=\"0 0 %" PRIu64 " 10\" preserveAspectRatio=\"none\" role=\"img\" "
		"aria-label=\"%s\">", name, class, COLUMNS, name);
	return (struct lane){ .to = to, .start = start, .length = length };
}

/* The column of a position that lies in the lane's stretch. */
static uint64_t column_of(const struct lane *lane, uint64_t at)
{
	return (at - lane->start) * COLUMNS / lane->length;
}

/* The column after a position's last: where a byte is wider than a column, up to the next byte. */
static uint64_t column_after(const struct lane *lane, uint64_t at)
{
	const uint64_t own = column_of(lane, at), next = column_of(lane, at + 1);
	return next > own ? next : own + 1;
}

/* A box over the columns from a position's to another's. */
void put_box(const struct lane *lane, const char *class, uint64_t first, uint64_t last)
{
	const uint64_t from = column_of(lane, first);
	fprintf(lane->to, "<rect%s%s%s x=\"%" PRIu64 "\" y=\"0\" width=\"%" PRIu64 "\" height=\"10\">",
		*class == 0 ? "" : " class=\"", class, *class == 0 ? "" : "\"", from,
		column_after(lane, last) - from);
}

/* The mark that waits, written. */
static void put_mark(struct lane *lane)
{
	if (lane->ranges == 0)
		return;
	put_box(lane, "", lane->first, lane->last);
	fprintf(lane->to, "<title>%" PRIu64 "..%" PRIu64, lane->first, lane->last);
	if (lane->ranges > 1)
		fprintf(lane->to, ", %" PRIu64 " ranges", lane->ranges);
	fputs("</title></rect>", lane->to);
	lane->ranges = 0;
}

/* A range marked, as far as it lies in the lane's stretch; ranges come in order. */
void mark_lane(struct lane *lane, uint64_t first, uint64_t last)
{
	const uint64_t end = lane->start + lane->length - 1;
	if (last < lane->start || first > end)
		return;
	first = first < lane->start ? lane->start : first;
	last = last > end ? end : last;
	if (lane->ranges > 0 && column_of(lane, first) > column_after(lane, lane->last))
		put_mark(lane);
	if (lane->ranges == 0)
		lane->first = first;
	lane->last = last;
	lane->ranges++;
}

void end_lane(struct lane *lane)
{
	put_mark(lane);
	fputs("</svg></div>\n", lane->to);
}

/* Positions at the start, the middle and the end of a map. */
void put_scale(FILE *to, uint64_t start, uint64_t length)
{
	fprintf(to, "<div class=\"lane\"><div class=\"name\"></div><div class=\"scale\"><span>%" PRIu64
		"</span><span>%" PRIu64 "</span><span>%" PRIu64 "</span></div></div>\n", start,
		start + length / 2, start + length - 1);
}
