/* The calls: each sends a case, asks the second reader on copies of exact length, and writes its answer. */
#include "cases.h"
#include "../second/mend.h"
#include "../second/second.h"

#include <inttypes.h>
#include <stdlib.h>
#include <string.h>

FILE *answers;
uint64_t given[CALLS][NUMBERS];
uint64_t explained;

/* A copy that is exactly as long as what is lent. */
static uint8_t *copy_of(const uint8_t *bytes, uint64_t count)
{
	if (count > SPACE)
		fail("more than the buffer");
	uint8_t *copy = malloc(count > 0 ? count : 1);
	if (copy == NULL)
		fail("no memory");
	memcpy(copy, bytes, count);
	return copy;
}

/* A case that misses its aim stops the maker. */
static void check_aim(uint64_t number, uint64_t index, uint64_t aimed_number, uint64_t aimed_index)
{
	if (aimed_number == ANY || (number == aimed_number && index == aimed_index))
		return;
	fprintf(stderr, "aimed at %" PRIu64 " %" PRIu64 ", got %" PRIu64 " %" PRIu64 "\n",
		aimed_number, aimed_index, number, index);
	fail("a case misses its aim");
}

/* The summary counts each call and number. */
static void count_case(enum call call, uint64_t number)
{
	if (number >= NUMBERS)
		fail("a number that doesn't exist");
	given[call][number]++;
	cases++;
}

/* Bytes after a line, and a line's end after them. */
static void write_bytes(const uint8_t *bytes, uint64_t count)
{
	if (fwrite(bytes, 1, count, answers) != count || putc('\n', answers) == EOF)
		fail("writing answers");
}

/* "Reading an image". */
void show(uint64_t len, uint64_t number, uint64_t index)
{
	uint8_t *copy = copy_of(image, len);
	const struct second_reading r = second_read(copy, len);
	free(copy);
	check_aim(r.number, r.index, number, index);
	send_case(&(struct order){ .call = CALL_READ, .len = len });
	if (fprintf(answers,
		    "%" PRIu64 " %" PRIu64 " %" PRIu64 " %" PRIu64 " %" PRIu64 " %" PRIu64
		    " %" PRIu64 " %" PRIu64 " %" PRIu64 " %" PRIu64 " %" PRIu64 " %" PRIu64 "\n",
		    r.number, r.index, r.H, r.component, r.image_identity, r.revision,
		    r.base, r.c, r.z, r.n, r.E, r.extended) < 0)
		fail("writing answers");
	count_case(CALL_READ, r.number);
}

/* #105, #106: the second reader's release on copies; the image's copy stays, changed. */
static struct second_released run_release(uint8_t *copy, const struct release *release)
{
	uint8_t *lent = copy_of(sheet, release->other);
	uint8_t *list = copy_of(owners, release->list);
	const struct second_released r = second_release(copy, release->len, lent, release->other, release->base,
							list, release->list, release->caller);
	free(lent);
	free(list);
	return r;
}

/* #106: who asks stands above the list's length, so both must fit 32 bits. */
void show_owned(const struct release *release, uint64_t number, uint64_t index)
{
	if (release->list > OWNERS_SPACE || release->caller >= TWO32)
		fail("a list or a caller that the records can't have");
	const uint64_t len = release->len;
	uint8_t *copy = copy_of(image, len);
	const struct second_released r = run_release(copy, release);
	check_aim(r.number, r.index, number, index);
	send_case(&(struct order){ .call = CALL_RELEASE, .len = len, .other = release->other, .list = release->list,
				   .a = release->base, .b = release->list | release->caller << 32 });
	change_buffer(0, copy, len);
	free(copy);
	if (fprintf(answers, "%" PRIu64 " %" PRIu64 " %" PRId64 "\n", r.number, r.index, r.move) < 0)
		fail("writing answers");
	write_bytes(image, len);
	count_case(CALL_RELEASE, r.number);
}

/* A release by owner 1, who has every setting. */
void show_release(uint64_t len, uint64_t other, uint64_t base, uint64_t number, uint64_t index)
{
	show_owned(&(struct release){ .len = len, .other = other, .list = own_all(), .base = base, .caller = 1 },
		   number, index);
}

/* A release that only moves; the sheet that stood in buffer 1 stands there again after it. */
void show_move(uint64_t len, uint64_t base, uint64_t number, uint64_t index)
{
	uint8_t kept[EMPTY_SHEET];
	memcpy(kept, sheet, EMPTY_SHEET);
	empty_sheet(sheet);
	show_release(len, EMPTY_SHEET, base, number, index);
	memcpy(sheet, kept, EMPTY_SHEET);
}

/* A release that only sets: to the base where the image is. */
void show_apply(uint64_t len, uint64_t other, uint64_t number, uint64_t index)
{
	show_release(len, other, get(spot.H + 28, 4), number, index);
}

/* "One setting". */
void show_setting(uint64_t len, uint64_t offset, uint64_t size, uint64_t number)
{
	uint8_t *copy = copy_of(image, len);
	const struct second_part r = second_setting(copy, len, offset, size);
	free(copy);
	check_aim(r.number, 0, number, 0);
	send_case(&(struct order){ .call = CALL_SETTING, .len = len, .a = offset, .b = size });
	if (fprintf(answers, "%" PRIu64 " %" PRIu64 "\n", r.number, r.length) < 0)
		fail("writing answers");
	write_bytes(image + r.position, r.length);
	count_case(CALL_SETTING, r.number);
}

/* "The audit": its line. */
static void write_counts(const struct second_audited *r)
{
	if (fprintf(answers,
		    "%" PRIu64 " %" PRIu64 " %" PRIu64 " %" PRIu64 " %" PRIu64 " %" PRIu64 " %" PRIu64 "\n",
		    r->number, r->index, r->base, r->settings, r->strays, r->bits, r->explained) < 0)
		fail("writing answers");
}

/* "The audit": its line, and all places of the list. */
static void write_audit(const struct second_audited *r, const uint32_t *list, uint64_t places)
{
	write_counts(r);
	for (uint64_t i = 0; i < places; i++)
		if (fprintf(answers, " %" PRIu32, list[i]) < 0)
			fail("writing answers");
	write_bytes(image, 0);
}

/* "The audit": a list filled by the rule place i = 3000000000 + i. */
static uint32_t *list_of(uint64_t places)
{
	if (places > 4096)
		fail("a list too long");
	uint32_t *list = malloc(places > 0 ? places * sizeof *list : 1);
	if (list == NULL)
		fail("no memory");
	for (uint64_t i = 0; i < places; i++)
		list[i] = (uint32_t)(3000000000 + i);
	return list;
}

/* "The audit": on copies. */
static struct second_audited run_audit(uint64_t len, uint64_t other, uint32_t *list, uint64_t places)
{
	uint8_t *vendor = copy_of(image, len);
	uint8_t *shipped = copy_of(sheet, other);
	const struct second_audited r = second_audit(vendor, len, shipped, other, list, places);
	free(vendor);
	free(shipped);
	return r;
}

/* "The audit". */
void show_audit(uint64_t len, uint64_t other, uint64_t places, uint64_t number, uint64_t index,
		uint64_t settings, uint64_t strays)
{
	uint32_t *list = list_of(places);
	const struct second_audited r = run_audit(len, other, list, places);
	check_aim(r.number, r.index, number, index);
	if (number == 0 || number == 20)
		check_aim(r.settings, r.strays, settings, strays);
	send_case(&(struct order){ .call = CALL_AUDIT, .len = len, .other = other, .a = places });
	write_audit(&r, list, places);
	free(list);
	count_case(CALL_AUDIT, r.number);
	explained += r.explained;
}

/* #110: on copies; buffer 1 then holds what came of the shipped file. */
static struct second_audited run_mend(const struct mending *mending, uint32_t *list, uint64_t places)
{
	uint8_t *vendor = copy_of(image, mending->len);
	uint8_t *shipped = copy_of(sheet, mending->other);
	const struct second_audited r = second_mend(vendor, mending->len, shipped, mending->other, list, places);
	check_aim(r.number, r.index, mending->number, mending->index);
	if (mending->number == 0 || mending->number == 20)
		check_aim(r.settings, r.strays, mending->settings, mending->strays);
	change_buffer(1, shipped, mending->other);
	free(vendor);
	free(shipped);
	return r;
}

/* #110: with a list of places. The case is sent before the call changes what is sent. */
void show_mend(const struct mending *mending)
{
	uint32_t *list = list_of(mending->list);
	send_case(&(struct order){ .call = CALL_MEND, .len = mending->len, .other = mending->other, .a = mending->list });
	const struct second_audited r = run_mend(mending, list, mending->list);
	write_audit(&r, list, mending->list);
	write_bytes(sheet, mending->other);
	free(list);
	count_case(CALL_MEND, r.number);
}

/* #110: the list's places as the bytes of buffer 2, four a place; bytes after the last whole place are in no place. */
static void put_places(const uint32_t *list, uint64_t places)
{
	uint8_t changed[OWNERS_SPACE];
	for (uint64_t i = 0; i < 4 * places; i++)
		changed[i] = (uint8_t)(list[i / 4] >> (8 * (i % 4)));
	change_buffer(2, changed, 4 * places);
}

/* #110: with a list of bytes, which are what buffer 2 held before. */
void show_mend_bytes(const struct mending *mending)
{
	const uint64_t places = mending->list / 4;
	uint32_t *list = list_of(places);
	send_case(&(struct order){ .call = CALL_MEND_BYTES, .len = mending->len, .other = mending->other,
				   .list = mending->list, .b = mending->list });
	const struct second_audited r = run_mend(mending, list, places);
	if (r.number == 0)
		put_places(list, r.settings + r.strays);
	write_counts(&r);
	write_bytes(owners, mending->list);
	write_bytes(sheet, mending->other);
	free(list);
	count_case(CALL_MEND_BYTES, r.number);
}
