/* The linked library's station against the second reader: every short log, long drawn logs, any bytes as the state. */
#include "fields.h"

#include <inttypes.h>
#include <stdbool.h>
#include <stdio.h>
#include <string.h>

#include "images.h"
#include "lent.h"
#include "station_log.h"
#include "../second/station.h"

#define STATE_ROOM ((size_t)4096)
#define MOST_REACHED 64
#define SHORT_LOG 5
#define REPEATS 16

/* A run of so many logs must have every number, state and kind. */
#define LONG 500

enum call { STEP, RESET, CALLS };

static const char *const call_name[CALLS] = { "station", "reset" };

/* The state as it is lent, the library's own eight bytes first; and ours, SECOND_STATES for bytes that are no state. */
static uint8_t bytes[STATE_ROOM];
static size_t size;
static uint64_t mine;
static struct lent lent_state;

/* The states that the library reaches from reset, as it writes them, and ours for each. */
static uint64_t reached[MOST_REACHED], ours[MOST_REACHED];
static size_t reached_count;
static bool all_reached;

/* What came: numbers by call, every kind of call in every state, how many logs, and bytes that are no state. */
static uint64_t seen[CALLS][101];
static uint64_t visited[SECOND_STATES + 1][SYMBOLS];
static uint64_t sequences, strange, refused_strange;

/* ---- the two sides ---- */

/* A state buffer: of eight bytes, longer, or where it may be too short. */
static void draw_size(bool may_be_short)
{
	const uint64_t kind = below(12);
	size = PAJURENDA_STATION_BYTES;
	if (kind == 0 && may_be_short)
		size = (size_t)below(PAJURENDA_STATION_BYTES);
	else if (kind < 4)
		size += (size_t)(1 + below(100));
	if (size > PAJURENDA_STATION_BYTES)
		fill_bytes(bytes + PAJURENDA_STATION_BYTES, size - PAJURENDA_STATION_BYTES);
}

/* Which of the library's states the bytes are; the count where none. */
static size_t which_reached(void)
{
	const uint64_t state = get_number(bytes, 0, PAJURENDA_STATION_BYTES);
	size_t i = 0;
	while (i < reached_count && reached[i] != state)
		i++;
	return i;
}

/* The library's bytes always stand for the same place in a log; new ones come up only while all are looked for. */
static bool note_state(void)
{
	const size_t i = which_reached();
	if (i < reached_count && ours[i] == mine)
		return true;
	if (i < reached_count || all_reached || reached_count == MOST_REACHED) {
		printf("state %016" PRIX64 ": %s\n", get_number(bytes, 0, PAJURENDA_STATION_BYTES),
		       i < reached_count ? "at two places of a log" : "reached by no single step, or too many states");
		return false;
	}
	reached[reached_count] = get_number(bytes, 0, PAJURENDA_STATION_BYTES);
	ours[reached_count++] = mine;
	return true;
}

/* What was returned, and every byte. */
static bool same_answer(enum call call, uint32_t got, uint32_t wanted)
{
	seen[call][wanted]++;
	if (got != wanted)
		printf("%s returned %" PRIu32 ", not %" PRIu32 "\n", call_name[call], got, wanted);
	return same_lent(&lent_state, "state", bytes) && got == wanted;
}

/* One call on both sides; the state after an accepted one is the library's own. */
static bool step_is_same(const struct entry *one)
{
	const struct second_stepped r = second_station(mine, one->call, one->notification);
	lend(&lent_state, bytes, size);
	const uint32_t got = pajurenda_station(lent_state.at, size, one->call, one->notification);
	const uint32_t wanted = size < PAJURENDA_STATION_BYTES ? PAJURENDA_SHORT : (uint32_t)r.number;
	const bool stepped = got == 0 && wanted == 0;
	if (stepped)
		memcpy(bytes, lent_state.at, PAJURENDA_STATION_BYTES);
	if (!same_answer(STEP, got, wanted)) {
		printf("in state %" PRIu64 " on call %" PRIu64 ", notification 0x%" PRIX64 "\n", mine, one->call,
		       one->notification);
		return false;
	}
	visited[mine][one->symbol] += wanted != PAJURENDA_SHORT ? 1 : 0;
	mine = stepped ? r.state : mine;
	return !stepped || note_state();
}

/* A reset on both sides: the state of eight zero bytes. */
static bool reset_is_same(void)
{
	const bool whole = size >= PAJURENDA_STATION_BYTES;
	lend(&lent_state, bytes, size);
	const uint32_t got = pajurenda_station_reset(lent_state.at, size);
	if (whole)
		memset(bytes, 0, PAJURENDA_STATION_BYTES);
	mine = whole ? AT_RESET : mine;
	return same_answer(RESET, got, whole ? PAJURENDA_ACCEPTED : PAJURENDA_SHORT);
}

/* ---- all states, all short logs ---- */

/* Every kind of call, some times over, in one of the library's states. */
static bool try_symbols(size_t from)
{
	for (unsigned i = 0; i < SYMBOLS * REPEATS; i++) {
		const struct entry one = drawn_entry(i % SYMBOLS);
		draw_size(true);
		put_number(bytes, 0, PAJURENDA_STATION_BYTES, reached[from]);
		mine = ours[from];
		if (!step_is_same(&one))
			return false;
	}
	return true;
}

/* Every state that the library reaches from eight zero bytes, each with every kind of call. */
static bool reach_all(void)
{
	snprintf(whereabouts, sizeof whereabouts, "the states reached from reset\n");
	numbers_from(108);
	memset(bytes, 0, sizeof bytes);
	mine = AT_RESET;
	bool same = note_state();
	for (size_t i = 0; same && i < reached_count; i++)
		same = try_symbols(i);
	all_reached = true;
	return same;
}

/* One log, by the digits of a number, from eight zero bytes or from a reset. */
static bool short_log(uint64_t digits, unsigned steps)
{
	draw_size(false);
	put_number(bytes, 0, PAJURENDA_STATION_BYTES, digits % 2 == 0 ? 0 : any_number());
	mine = AT_RESET;
	bool same = digits % 2 == 0 || reset_is_same();
	for (unsigned i = 0; same && i < steps; i++, digits /= SYMBOLS) {
		const struct entry one = drawn_entry((unsigned)(digits % SYMBOLS));
		same = step_is_same(&one);
	}
	sequences++;
	return same;
}

/* All logs of so many calls. */
static bool short_logs(unsigned steps)
{
	uint64_t all = 1;
	for (unsigned i = 0; i < steps; i++)
		all *= SYMBOLS;
	for (uint64_t digits = 0; digits < all; digits++) {
		snprintf(whereabouts, sizeof whereabouts, "log %" PRIu64 " of %u calls\n", digits, steps);
		numbers_from(digits * 8 + steps);
		if (!short_log(digits, steps))
			return false;
	}
	return true;
}

/* ---- drawn logs, drawn states ---- */

/* A call that is in order, where there is one; found by asking the second reader. */
static struct entry drawn_due(void)
{
	const unsigned from = (unsigned)below(SYMBOLS);
	struct entry one = drawn_entry(from);
	for (unsigned i = 0; i < SYMBOLS && second_station(mine, one.call, one.notification).number != 0; i++)
		one = drawn_entry((from + i) % SYMBOLS);
	return one;
}

/* A log of drawn calls and resets, about half of the calls in order, short buffers between. */
static bool long_log(void)
{
	uint64_t left = 20 + below(below(8) == 0 ? 2000 : 60);
	bool same = true;
	memset(bytes, 0, PAJURENDA_STATION_BYTES);
	mine = AT_RESET;
	for (; same && left > 0; left--) {
		const struct entry one = below(2) == 0 ? drawn_due() : drawn_entry((unsigned)below(SYMBOLS));
		draw_size(true);
		same = below(24) == 0 ? reset_is_same() : step_is_same(&one);
	}
	return same;
}

/* Eight bytes for a state: small, a bit, any, or about one of the library's. */
static uint64_t drawn_state(void)
{
	const uint64_t near = reached[below(reached_count)];
	switch (below(8)) {
	case 0: return below(16);
	case 1: return below(65536);
	case 2: return UINT64_C(1) << below(64);
	case 3: return near ^ UINT64_C(1) << below(64);
	case 4: return near + below(9) - 4;
	case 5: return near << 8 * below(8);
	case 6: return UINT64_MAX - below(16);
	default: return any_number() >> below(64);
	}
}

/* Any bytes as the state: one of the library's, or one in which every call is refused and nothing changes, up to a reset. */
static bool any_state(void)
{
	draw_size(false);
	put_number(bytes, 0, PAJURENDA_STATION_BYTES, drawn_state());
	const size_t i = which_reached();
	bool same = true;
	mine = i < reached_count ? ours[i] : SECOND_STATES;
	strange += mine == SECOND_STATES ? 1 : 0;
	for (unsigned symbol = 0; same && symbol < SYMBOLS; symbol++) {
		const struct entry one = drawn_entry(symbol);
		refused_strange += mine == SECOND_STATES ? 1 : 0;
		same = step_is_same(&one);
	}
	const struct entry first = drawn_entry((unsigned)below(2));
	return same && reset_is_same() && step_is_same(&first);
}

/* ---- the run ---- */

/* Whether every kind of call came in every state, in bytes that are none too; says which did not. */
static bool had_states(void)
{
	bool all = true;
	for (unsigned i = 0; i < (SECOND_STATES + 1) * SYMBOLS; i++)
		if (visited[i / SYMBOLS][i % SYMBOLS] == 0) {
			printf("missing: no call of kind %u in state %u\n", i % SYMBOLS, i / SYMBOLS);
			all = false;
		}
	return all;
}

/* Whether each number came that a call can have. */
static bool had_numbers(void)
{
	const uint64_t *step = seen[STEP], *reset = seen[RESET];
	if (step[0] != 0 && step[PAJURENDA_ORDER] != 0 && step[PAJURENDA_UNKNOWN] != 0 && step[PAJURENDA_SHORT] != 0 &&
	    reset[0] != 0 && reset[PAJURENDA_SHORT] != 0)
		return true;
	puts("missing: a number never came");
	return false;
}

/* The counts, and whether the run had all it must have; a part of a run need not. */
static int conclude(uint64_t first, uint64_t count)
{
	const bool whole = first == 0 && count >= LONG;
	for (int call = 0; call < CALLS; call++)
		show_seen(call_name[call], seen[call]);
	printf("states that the library reaches from reset: %zu\n", reached_count);
	printf("logs of up to %d calls: %" PRIu64 "; bytes that are no state: %" PRIu64 ", calls in them, all refused: %" PRIu64
	       "\n", SHORT_LOG, sequences, strange, refused_strange);
	const bool all = !whole || (had_numbers() && had_states());
	printf("same: %" PRIu64 " logs%s\n", count, all ? "" : ", but not of every kind");
	return all ? 0 : 1;
}

/* All states, which every run needs; then, from the start on, all short logs. */
static bool begin(uint64_t first)
{
	bool same = reach_all();
	for (unsigned steps = 1; same && first == 0 && steps <= SHORT_LOG; steps++)
		same = short_logs(steps);
	return same;
}

/* All drawn logs in turn, each with drawn states after it; each from its own start, so that one can be repeated alone. */
static int run(uint64_t seed, uint64_t first, uint64_t count)
{
	bool same = begin(first);
	for (uint64_t i = first; same && i < first + count; i++) {
		snprintf(whereabouts, sizeof whereabouts, "seed %" PRIu64 " log %" PRIu64 "\n", seed, i);
		numbers_from(seed * UINT64_C(0x2545F4914F6CDD1D) + i);
		same = long_log() && any_state() && any_state();
	}
	if (same)
		return conclude(first, count);
	printf("different: %s", whereabouts);
	return 1;
}

/* compare_station SEED LOGS [FIRST]; FIRST with one log repeats that log alone. */
int main(int count, char **word)
{
	if (count < 3 || count > 4) {
		fputs("usage: compare_station SEED LOGS [FIRST]\n", stderr);
		return 2;
	}
	const uint64_t seed = number_of(word[1]), logs = number_of(word[2]);
	const uint64_t first = count == 4 ? number_of(word[3]) : 0;
	open_lent(&lent_state, STATE_ROOM);
	watch_faults();
	printf("seed %" PRIu64 " logs %" PRIu64 " from %" PRIu64 "\n", seed, logs, first);
	fflush(stdout);
	const int status = run(seed, first, logs);
	return fclose(stdout) == 0 ? status : 2;
}
