/* The linked library against the second reader, on drawn and damaged inputs. */
#include "fields.h"

#include <inttypes.h>
#include <stdbool.h>
#include <stdio.h>
#include <stdlib.h>
#include <string.h>

#include "contents.h"
#include "counts.h"
#include "drawing.h"
#include "lent.h"
#include "../second/second.h"

#define PLACES_ROOM (4 * (size_t)TWO24 + 65536)
#define ANSWER_ROOM ((size_t)4096)

/* Every so many calls, a multiple of CALLS, the edges of refusals 1 and 15 come. */
#define ROUND 9600

static const size_t answer_bytes[CALLS] = { PAJURENDA_READ_BYTES, PAJURENDA_RELEASE_BYTES, PAJURENDA_SHEET_BYTES,
					    PAJURENDA_SETTING_BYTES, PAJURENDA_AUDIT_BYTES, PAJURENDA_CONTENTS_BYTES };

static const char *const part_name[PARTS] = { "image", "other", "owners", "places", "answer" };
static const size_t part_room[PARTS] = { IMAGE_ROOM, IMAGE_ROOM, OWNERS_ROOM, PLACES_ROOM, ANSWER_ROOM };

static struct lent lent[PARTS];
uint8_t *model[PARTS];
size_t length[PARTS];
uint32_t *list;
struct plan plan;
static uint64_t first_number, second_number;

/* One buffer to lend, and the model's. */
static void open_part(enum part part)
{
	open_lent(&lent[part], part_room[part]);
	model[part] = memory(malloc(part_room[part]));
}

/* ---- what a call gets besides the image ---- */

/* A base: legal, the present one, or one that is not legal. */
static void draw_base(void)
{
	const uint64_t legal = drawn_base(plan.length);
	switch (below(12)) {
	case 6:
	case 0: first_number = plan.base; break;
	case 1: first_number = legal + (UINT64_C(1) << below(12)); break;
	case 2: first_number = legal + TWO32 * (1 + below(3)); break;
	case 3: first_number = (TWO32 - plan.length) / 4096 * 4096 + 4096 * below(2); break;
	case 4: first_number = UINT64_C(1) << below(64); break;
	case 5: first_number = any_number(); break;
	default: first_number = legal; break;
	}
}

/* A number for an offset or a size of a setting. */
static uint64_t drawn_bound(uint64_t z)
{
	switch (below(8)) {
	case 0: return below(3);
	case 1: return 30 + below(5);
	case 2: return z - 2 + below(5);
	case 3: return z - 34 + below(5);
	case 4: return UINT64_MAX - below(70);
	case 5: return TWO32 * below(3) + below(300);
	default: return below(z + 1);
	}
}

/* The offset and size of one setting. */
static void draw_setting(void)
{
	first_number = drawn_bound(plan.z);
	second_number = drawn_bound(plan.z);
	if (below(2) == 0)
		first_number = 32 + below(plan.z - 31), second_number = below(8);
	if (below(3) == 0)
		second_number = plan.z - first_number + below(3) - 1;
}

/* The answer buffer: exact, longer, or too short. */
static void draw_answer(enum call call)
{
	const uint64_t kind = below(16);
	length[ANSWER] = answer_bytes[call];
	if (kind == 0)
		length[ANSWER] = (size_t)below(answer_bytes[call]);
	else if (kind == 1)
		length[ANSWER] -= 1;
	else if (kind < 6)
		length[ANSWER] += (size_t)(1 + below(100));
	fill_bytes(model[ANSWER], length[ANSWER]);
}

/* Everything a call is given, in the model's buffers; the first turns of a round are for the edges. */
static void draw(enum call call, uint64_t turn)
{
	const bool edge = turn < (call == SHEET ? SHEET_LENGTHS : EDGES);
	length[IMAGE] = length[OTHER] = length[OWNERS] = length[PLACES] = 0;
	if (call == SHEET)
		draw_lone_sheet(turn);
	else if (edge)
		draw_edge((enum edge)turn);
	else
		draw_image();
	if (call == RELEASE)
		draw_base(), draw_sheet(), second_number = draw_owners();
	else if (call == SETTING)
		draw_setting();
	else if (call == AUDIT)
		draw_shipped();
	else if (call == CONTENTS)
		draw_list();
	draw_answer(call);
	if (edge)
		length[ANSWER] = answer_bytes[call];
}

/* ---- the two sides ---- */

/* The library on the lent buffers. */
static uint32_t call_library(enum call call)
{
	uint8_t *image = lent[IMAGE].at, *other = lent[OTHER].at, *answer = lent[ANSWER].at;
	const size_t size = length[IMAGE], room = length[ANSWER];
	switch (call) {
	case READ: return pajurenda_read(image, size, answer, room);
	case RELEASE:
		return pajurenda_release(image, size, other, length[OTHER], first_number,
					 lent[OWNERS].at, length[OWNERS], second_number, answer, room);
	case SHEET: return pajurenda_sheet(other, length[OTHER], answer, room);
	case SETTING:
		return pajurenda_setting(image, size, first_number, second_number, answer, room);
	case CONTENTS: return pajurenda_contents(image, size, lent[PLACES].at, length[PLACES], answer, room);
	default:
		return pajurenda_audit(image, size, other, length[OTHER],
				       lent[PLACES].at, length[PLACES], answer, room);
	}
}

/* The second reader's audit, its list as bytes. */
static uint32_t model_audit(void)
{
	const struct second_audited a = second_audit(model[IMAGE], length[IMAGE], model[OTHER],
						     length[OTHER], list, length[PLACES] / 4);
	const uint64_t fields[] = { a.number, a.index, a.base, a.settings, a.strays,
				    a.bits, a.explained };
	put_fields(model[ANSWER], fields, 7);
	for (size_t i = 0; a.number == 0 && i < a.settings + a.strays; i++)
		put_number(model[PLACES], 4 * i, 4, list[i]);
	return (uint32_t)a.number;
}

/* The second reader's reading. */
static uint32_t model_read(void)
{
	const struct second_reading r = second_read(model[IMAGE], length[IMAGE]);
	const uint64_t fields[] = { r.number, r.index, r.H, r.component, r.image_identity,
				    r.revision, r.base, r.c, r.z, r.n, r.E, r.extended };
	put_fields(model[ANSWER], fields, 12);
	return (uint32_t)r.number;
}

/* The second reader on a sheet by itself. */
static uint32_t model_sheet(void)
{
	const struct second_judged r = second_sheet(model[OTHER], length[OTHER]);
	const uint64_t fields[] = { r.number, r.count, r.image_identity, r.revision, r.extended };
	put_fields(model[ANSWER], fields, 5);
	count_sheet(&r);
	return (uint32_t)r.number;
}

/* The second reader's release. */
static uint32_t model_release(void)
{
	const struct second_released r =
		second_release(model[IMAGE], length[IMAGE], model[OTHER], length[OTHER], first_number,
			       model[OWNERS], length[OWNERS], second_number);
	const uint64_t fields[] = { r.number, r.index, (uint64_t)r.move };
	put_fields(model[ANSWER], fields, 3);
	count_release(&r, second_number);
	return (uint32_t)r.number;
}

/* The second reader on one setting. */
static uint32_t model_setting(void)
{
	const struct second_part r = second_setting(model[IMAGE], length[IMAGE], first_number, second_number);
	const uint64_t fields[] = { r.number, r.position, r.length };
	put_fields(model[ANSWER], fields, 3);
	return (uint32_t)r.number;
}

/* The second reader on the model's buffers; nothing where the answer is too short. */
static uint32_t call_model(enum call call)
{
	if (length[ANSWER] < answer_bytes[call])
		return PAJURENDA_SHORT;
	switch (call) {
	case READ: return model_read();
	case RELEASE: return model_release();
	case SHEET: return model_sheet();
	case SETTING: return model_setting();
	case CONTENTS:
		return model_contents(model[IMAGE], length[IMAGE], model[PLACES], length[PLACES], model[ANSWER]);
	default: return model_audit();
	}
}

/* One drawn call on both sides; true where all is the same. */
static bool compare_call(enum call call)
{
	bool same = true;
	for (int part = 0; part < PARTS; part++)
		lend(&lent[part], model[part], length[part]);
	const uint32_t got = call_library(call), wanted = call_model(call);
	if (got != wanted) {
		printf("returned %" PRIu32 ", not %" PRIu32 "\n", got, wanted);
		same = false;
	}
	for (int part = 0; part < PARTS; part++)
		same = same_lent(&lent[part], part_name[part], model[part]) && same;
	count_call(call, wanted);
	return same;
}

/* ---- the run ---- */

/* The call of a turn: all calls one after the other, so many turns of each in a round. */
static enum call draw_turn(uint64_t i)
{
	const enum call call = (enum call)(i % CALLS);
	draw(call, i % ROUND / CALLS);
	return call;
}

/* All calls in turn; each draws from its own start, so that one can be repeated alone. */
static int run(uint64_t seed, uint64_t first, uint64_t count)
{
	for (uint64_t i = first; i < first + count; i++) {
		snprintf(whereabouts, sizeof whereabouts, "seed %" PRIu64 " call %" PRIu64 "\n", seed, i);
		numbers_from(seed * UINT64_C(0x2545F4914F6CDD1D) + i);
		const enum call call = draw_turn(i);
		if (!compare_call(call)) {
			printf("different: %s, %s", call_name[call], whereabouts);
			return 1;
		}
	}
	return conclude(first, count);
}

/* compare SEED CALLS [FIRST]; FIRST with one call repeats that call alone. */
int main(int count, char **word)
{
	if (count < 3 || count > 4) {
		fputs("usage: compare SEED CALLS [FIRST]\n", stderr);
		return 2;
	}
	const uint64_t seed = number_of(word[1]), calls = number_of(word[2]);
	const uint64_t first = count == 4 ? number_of(word[3]) : 0;
	for (int part = 0; part < PARTS; part++)
		open_part((enum part)part);
	list = memory(malloc(PLACES_ROOM));
	watch_faults();
	printf("seed %" PRIu64 " calls %" PRIu64 " from %" PRIu64 "\n", seed, calls, first);
	fflush(stdout);
	const int status = run(seed, first, calls);
	return fclose(stdout) == 0 ? status : 2;
}
