/* Request #110: shipped files mended by the linked library and by the second reader, every lent byte compared; then audited again. */
#include "fields.h"

#include <inttypes.h>
#include <stdbool.h>
#include <stdio.h>
#include <stdlib.h>
#include <string.h>

#include "drawing.h"
#include "lent.h"
#include "../second/mend.h"
#include "../second/second.h"

#define PLACES_ROOM (4 * (size_t)TWO24 + 65536)
#define ANSWER_ROOM ((size_t)4096)
#define NUMBERS 101

static const char *const part_name[PARTS] = { "vendor", "shipped", "owners", "places", "answer" };
static const size_t part_room[PARTS] = { IMAGE_ROOM, IMAGE_ROOM, OWNERS_ROOM, PLACES_ROOM, ANSWER_ROOM };

static struct lent lent[PARTS];
uint8_t *model[PARTS];
size_t length[PARTS];
uint32_t *list;
struct plan plan;
static uint64_t seen[NUMBERS], put_back, untouched;

/* One buffer to lend, and the model's. */
static void open_part(enum part part)
{
	open_lent(&lent[part], part_room[part]);
	model[part] = memory(malloc(part_room[part]));
}

/* The answer buffer: exact, longer, or too short. */
static void draw_answer(void)
{
	const uint64_t kind = below(16);
	length[ANSWER] = PAJURENDA_AUDIT_BYTES;
	if (kind == 0)
		length[ANSWER] = (size_t)below(PAJURENDA_AUDIT_BYTES);
	else if (kind == 1)
		length[ANSWER] -= 1;
	else if (kind < 6)
		length[ANSWER] += (size_t)(1 + below(100));
	fill_bytes(model[ANSWER], length[ANSWER]);
}

/* Every byte of the shipped file another, but the base word: so many places as that takes. */
static void harm_all(void)
{
	for (size_t i = 0; i < length[OTHER]; i++)
		if (i < plan.H + 28 || i >= plan.H + 32)
			model[OTHER][i] ^= (uint8_t)(1 + below(255));
	length[PLACES] = 4 * (length[OTHER] - below(3));
	fill_bytes(model[PLACES], length[PLACES]);
}

/* The first and the last byte another. */
static void harm_ends(void)
{
	if (length[OTHER] == 0)
		return;
	model[OTHER][0] ^= (uint8_t)(1 + below(255));
	model[OTHER][length[OTHER] - 1] ^= (uint8_t)(1 + below(255));
	length[PLACES] = 4 * (size_t)below(20);
	fill_bytes(model[PLACES], length[PLACES]);
}

/* A pair of files, a list and an answer. */
static void draw(uint64_t turn)
{
	length[IMAGE] = length[OTHER] = length[OWNERS] = length[PLACES] = 0;
	if (turn < EDGES)
		draw_edge((enum edge)turn);
	else
		draw_image();
	draw_shipped();
	if (length[OTHER] >= 72 && length[OTHER] < 65536 && below(40) == 0)
		harm_all();
	else if (below(12) == 0)
		harm_ends();
	draw_answer();
}

/* The second reader on the model's buffers; nothing where the answer is too short. */
static uint32_t call_model(void)
{
	if (length[ANSWER] < PAJURENDA_AUDIT_BYTES)
		return PAJURENDA_SHORT;
	const struct second_audited a = second_mend(model[IMAGE], length[IMAGE], model[OTHER], length[OTHER],
						    list, length[PLACES] / 4);
	const uint64_t fields[] = { a.number, a.index, a.base, a.settings, a.strays, a.bits, a.explained };
	put_fields(model[ANSWER], fields, 7);
	for (size_t i = 0; a.number == 0 && i < a.settings + a.strays; i++)
		put_number(model[PLACES], 4 * i, 4, list[i]);
	return (uint32_t)a.number;
}

/* What was mended audits as explained, with the same base, settings and bits. */
static bool explained_now(void)
{
	uint8_t now[PAJURENDA_AUDIT_BYTES];
	const uint8_t *before = lent[ANSWER].at;
	const uint32_t number = pajurenda_audit(lent[IMAGE].at, length[IMAGE], lent[OTHER].at, length[OTHER],
						lent[PLACES].at, length[PLACES], now, sizeof now);
	const bool same = get_number(now, PAJURENDA_AUDIT_BASE, 8) == get_number(before, PAJURENDA_AUDIT_BASE, 8) &&
			  get_number(now, PAJURENDA_AUDIT_SETTINGS, 8) == get_number(before, PAJURENDA_AUDIT_SETTINGS, 8) &&
			  get_number(now, PAJURENDA_AUDIT_BITS, 8) == get_number(before, PAJURENDA_AUDIT_BITS, 8);
	if (number != 0 || !same || get_number(now, PAJURENDA_AUDIT_EXPLAINED, 8) != 1) {
		printf("mended, but the audit says %" PRIu32 " or other counts\n", number);
		return false;
	}
	return true;
}

/* One drawn call on both sides; true where all is the same. */
static bool compare_call(void)
{
	bool same = true;
	for (int part = 0; part < PARTS; part++)
		lend(&lent[part], model[part], length[part]);
	const uint32_t got = pajurenda_mend(lent[IMAGE].at, length[IMAGE], lent[OTHER].at, length[OTHER],
					    lent[PLACES].at, length[PLACES], lent[ANSWER].at, length[ANSWER]);
	const uint32_t wanted = call_model();
	if (got != wanted) {
		printf("returned %" PRIu32 ", not %" PRIu32 "\n", got, wanted);
		same = false;
	}
	for (int part = 0; part < PARTS; part++)
		same = same_lent(&lent[part], part_name[part], model[part]) && same;
	seen[wanted]++;
	if (wanted == 0 && get_number(model[ANSWER], PAJURENDA_AUDIT_STRAYS, 8) != 0)
		put_back++;
	else if (wanted == 0)
		untouched++;
	return same && (wanted != 0 || explained_now());
}

/* Each call draws from its own start, so that one can be repeated alone. */
static int run(uint64_t seed, uint64_t first, uint64_t count)
{
	for (uint64_t i = first; i < first + count; i++) {
		snprintf(whereabouts, sizeof whereabouts, "seed %" PRIu64 " call %" PRIu64 "\n", seed, i);
		numbers_from(seed * UINT64_C(0x2545F4914F6CDD1D) + i);
		draw(i);
		if (!compare_call()) {
			printf("different: mend, %s", whereabouts);
			return 1;
		}
	}
	show_seen("mend", seen);
	printf("%" PRIu64 " files mended, %" PRIu64 " with nothing to mend\n", put_back, untouched);
	return count < 1000 || (put_back != 0 && untouched != 0 && seen[18] != 0 && seen[19] != 0 && seen[20] != 0) ? 0 : 1;
}

/* compare_mend SEED CALLS [FIRST]; FIRST with one call repeats that call alone. */
int main(int count, char **word)
{
	if (count < 3 || count > 4) {
		fputs("usage: compare_mend SEED CALLS [FIRST]\n", stderr);
		return 2;
	}
	const uint64_t seed = number_of(word[1]), calls = number_of(word[2]);
	for (int part = 0; part < PARTS; part++)
		open_part((enum part)part);
	list = memory(malloc(PLACES_ROOM));
	watch_faults();
	const int status = run(seed, count == 4 ? number_of(word[3]) : 0, calls);
	return fclose(stdout) == 0 ? status : 2;
}
