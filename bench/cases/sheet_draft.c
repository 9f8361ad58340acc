/* The drafting of a release sheet into buffer 1. */
#include "sheet_cases.h"

struct draft draft;

/* A small plan with room for settings, and an empty sheet for it. */
void sheet_start(unsigned k)
{
	small(k);
	now.z += 24;
	fit(11 + k);
	draft_start();
}

/* Refusal 16: a sheet of the planned image's identity, revision and extended number. */
void draft_start(void)
{
	draft = (struct draft){
		.identity = now.identity, .revision = now.revision, .extended = extended_number(), .length = 16,
	};
}

/* Refusal 15: where each body stands, and how long the sheet is with them. */
void draft_bodies(void)
{
	uint64_t running = 16 + 8 * draft.m;
	for (uint64_t i = 0; i < draft.m; i++) {
		draft.field[i].body = running;
		running += draft.field[i].length;
	}
	draft.length = running;
}

/* "The release sheet": one more entry, the bodies running on. */
void draft_field(uint64_t offset, uint64_t length)
{
	if (draft.m == MOST_FIELDS)
		fail("too many fields");
	draft.field[draft.m].offset = offset;
	draft.field[draft.m].length = length;
	draft.m++;
	draft_bodies();
}

/* Four fields: from 32 on, touching, a single byte, ending at z. */
void draft_standard(void)
{
	draft_start();
	draft_field(32, 3);
	draft_field(35, 4);
	draft_field(45, 1);
	draft_field(50, now.z - 50);
}

/* Every second byte of the settings. */
void draft_scattered(void)
{
	draft_start();
	for (uint64_t offset = 33; offset < now.z; offset += 2)
		draft_field(offset, 1);
}

/* Fields by the fixed sequence, in order and within the region. */
void draft_random(void)
{
	uint64_t offset = 32;
	draft_start();
	draft.flavour = below(256);
	while (offset < now.z && draft.m < 9) {
		offset += below(2) == 0 ? 0 : below(8);
		const uint64_t length = 1 + below(9);
		if (offset + length <= now.z)
			draft_field(offset, length);
		offset += length;
	}
}

/* The draft in buffer 1, its bodies' bytes different from the image's. */
void write_draft(void)
{
	const uint64_t bodies = 16 + 8 * draft.m;
	put_sheet(0, 8, draft.identity);
	put_sheet(8, 4, draft.revision);
	put_sheet(12, 2, draft.m);
	put_sheet(14, 2, draft.extended);
	for (uint64_t i = 0; i < draft.m; i++) {
		put_sheet(16 + 8 * i, 4, draft.field[i].offset);
		put_sheet(20 + 8 * i, 2, draft.field[i].length);
		put_sheet(22 + 8 * i, 2, draft.field[i].body);
	}
	for (uint64_t at = bodies; at < draft.length; at++)
		put_sheet(at, 1, at * 29 + draft.flavour * 71 + 200);
}

/* The draft on the planned image. */
void apply_draft(uint64_t number)
{
	build();
	write_draft();
	show_apply(now.length, draft.length, number, 0);
}

/* A sheet of one field. */
void apply_one(uint64_t offset, uint64_t length, uint64_t number)
{
	draft_start();
	draft_field(offset, length);
	apply_draft(number);
}

/* A sheet of two fields. */
void apply_two(uint64_t offset, uint64_t length, uint64_t next_offset, uint64_t next_length,
	       uint64_t number)
{
	draft_start();
	draft_field(offset, length);
	draft_field(next_offset, next_length);
	apply_draft(number);
}
