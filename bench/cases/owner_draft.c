/* The drafting of an owner list into buffer 2, and releases with it. */
#include "owner_cases.h"

struct held held;

/* #106: a list without ranges, and who asks. */
void held_start(uint64_t caller)
{
	held = (struct held){ .caller = caller };
}

/* #106: one more range. */
void held_range(uint64_t offset, uint64_t length, uint64_t owner)
{
	if (held.count == MOST_HELD)
		fail("too many ranges");
	held.range[held.count].offset = offset;
	held.range[held.count].length = length;
	held.range[held.count].owner = owner;
	held.count++;
	held.length = 8 * held.count;
}

/* Two ranges of each owner: from 32 on, touching, after a gap, and after a gap up to z. */
void held_standard(uint64_t caller)
{
	held_start(caller);
	held_range(32, 4, 1);
	held_range(36, 6, 2);
	held_range(45, 3, 1);
	held_range(50, now.z - 50, 2);
}

/* Ranges by the fixed sequence, right ones, touching or not, more of them owner 1's. */
void held_random(void)
{
	uint64_t offset = 32;
	held_start(1 + below(2));
	while (offset < now.z && held.count < 9) {
		offset += below(3) == 0 ? below(5) : 0;
		const uint64_t length = 1 + below(12);
		if (offset + length <= now.z)
			held_range(offset, length, below(4) == 0 ? 2 : 1);
		offset += length;
	}
}

/* The list in buffer 2. */
static void write_held(void)
{
	for (uint64_t i = 0; i < held.count; i++)
		put_range(i, held.range[i].offset, held.range[i].length, held.range[i].owner);
}

/* The drafted sheet and list on so many bytes of the image as it is. */
void release_lent(uint64_t len, uint64_t base, uint64_t number, uint64_t index)
{
	write_draft();
	write_held();
	show_owned(&(struct release){ .len = len, .other = draft.length, .list = held.length,
				      .base = base, .caller = held.caller }, number, index);
}

/* The drafted sheet and list on the image as it is. */
void release_held_on(uint64_t base, uint64_t number)
{
	release_lent(now.length, base, number, 0);
}

/* The drafted sheet and list on the planned image. */
void release_held(uint64_t base, uint64_t number)
{
	build();
	release_held_on(base, number);
}

/* The first range of the one who asks; the count where there is none. */
static uint64_t first_own(void)
{
	uint64_t i = 0;
	while (i < held.count && held.range[i].owner != held.caller)
		i++;
	return i;
}

/* The list with a sheet without entries, and with one that sets the first byte that the caller has. */
void try_list(uint64_t number)
{
	const uint64_t own = first_own();
	draft_start();
	release_held(random_base(), number);
	if (own == held.count && number == 0)
		return;
	draft_field(own < held.count ? held.range[own].offset : 40, 1);
	release_held(random_base(), number);
}

/* The list with a sheet of one field. */
void try_field(uint64_t offset, uint64_t length, uint64_t number)
{
	draft_start();
	draft_field(offset, length);
	release_held(random_base(), number);
}
