/* The calls over the second reader, for building and testing before the archive is there. */
#include "fields.h"

#include <stdlib.h>

#include "../second/handoff.h"
#include "../second/fold.h"
#include "../second/hex.h"
#include "../second/map.h"
#include "../second/sha256.h"
#include "../second/mend.h"
#include "../second/second.h"
#include "../second/station.h"

#define FIELDS(list) (sizeof(list) / sizeof((list)[0]))

/* The whole reading. */
uint32_t pajurenda_read(const uint8_t *image, size_t length,
			uint8_t *answer, size_t answer_length)
{
	if (answer_length < PAJURENDA_READ_BYTES)
		return PAJURENDA_SHORT;
	const struct second_reading r = second_read(image, length);
	const uint64_t fields[] = { r.number, r.index, r.H, r.component, r.image_identity,
				    r.revision, r.base, r.c, r.z, r.n, r.E, r.extended };
	put_fields(answer, fields, FIELDS(fields));
	return (uint32_t)r.number;
}

/* The image set and moved in place. */
uint32_t pajurenda_release(uint8_t *image, size_t image_length,
			   const uint8_t *sheet, size_t sheet_length, uint64_t base,
			   const uint8_t *owners, size_t owners_length, uint64_t owner,
			   uint8_t *answer, size_t answer_length)
{
	if (answer_length < PAJURENDA_RELEASE_BYTES)
		return PAJURENDA_SHORT;
	const struct second_released r = second_release(image, image_length, sheet, sheet_length, base,
							owners, owners_length, owner);
	const uint64_t fields[] = { r.number, r.index, (uint64_t)r.move };
	put_fields(answer, fields, FIELDS(fields));
	return (uint32_t)r.number;
}

/* A sheet by itself. */
uint32_t pajurenda_sheet(const uint8_t *sheet, size_t sheet_length,
			 uint8_t *answer, size_t answer_length)
{
	if (answer_length < PAJURENDA_SHEET_BYTES)
		return PAJURENDA_SHORT;
	const struct second_judged r = second_sheet(sheet, sheet_length);
	const uint64_t fields[] = { r.number, r.count, r.image_identity, r.revision, r.extended };
	put_fields(answer, fields, FIELDS(fields));
	return (uint32_t)r.number;
}

/* The place of one setting. */
uint32_t pajurenda_setting(const uint8_t *image, size_t length, uint64_t offset, uint64_t size,
			   uint8_t *answer, size_t answer_length)
{
	if (answer_length < PAJURENDA_SETTING_BYTES)
		return PAJURENDA_SHORT;
	const struct second_part r = second_setting(image, length, offset, size);
	const uint64_t fields[] = { r.number, r.position, r.length };
	put_fields(answer, fields, FIELDS(fields));
	return (uint32_t)r.number;
}

/* The differences as bytes, through a list of numbers of the same count. */
static struct second_audited list_differences(const uint8_t *vendor, const uint8_t *shipped,
					      size_t length, uint8_t *places, uint64_t count)
{
	uint32_t *list = calloc((size_t)count + 1, sizeof *list);
	if (list == NULL)
		abort();
	const struct second_audited r = second_audit(vendor, length, shipped, length, list, count);
	for (size_t i = 0; i < count; i++)
		put_number(places, 4 * i, 4, list[i]);
	free(list);
	return r;
}

/* The counts first, then the list where it has room. */
uint32_t pajurenda_audit(const uint8_t *vendor, size_t vendor_length,
			 const uint8_t *shipped, size_t shipped_length,
			 uint8_t *places, size_t places_length,
			 uint8_t *answer, size_t answer_length)
{
	if (answer_length < PAJURENDA_AUDIT_BYTES)
		return PAJURENDA_SHORT;
	uint32_t none = 0;
	struct second_audited r =
		second_audit(vendor, vendor_length, shipped, shipped_length, &none, 0);
	const uint64_t count = r.settings + r.strays;
	if (r.number == PAJURENDA_ROOM && count <= places_length / PAJURENDA_PLACE_BYTES)
		r = list_differences(vendor, shipped, vendor_length, places, count);
	const uint64_t fields[] = { r.number, r.index, r.base, r.settings, r.strays,
				    r.bits, r.explained };
	put_fields(answer, fields, FIELDS(fields));
	return (uint32_t)r.number;
}

/* The audit's answer and list; then the strays of the file put back, where there was room. */
uint32_t pajurenda_mend(const uint8_t *vendor, size_t vendor_length,
			uint8_t *shipped, size_t shipped_length,
			uint8_t *places, size_t places_length,
			uint8_t *answer, size_t answer_length)
{
	if (answer_length < PAJURENDA_AUDIT_BYTES)
		return PAJURENDA_SHORT;
	const uint64_t room = places_length / PAJURENDA_PLACE_BYTES;
	uint32_t *list = calloc((size_t)room + 1, sizeof *list);
	if (list == NULL)
		abort();
	const struct second_audited r = second_mend(vendor, vendor_length, shipped, shipped_length, list, room);
	for (size_t i = 0; r.number == 0 && i < r.settings + r.strays; i++)
		put_number(places, 4 * i, 4, list[i]);
	free(list);
	const uint64_t fields[] = { r.number, r.index, r.base, r.settings, r.strays,
				    r.bits, r.explained };
	put_fields(answer, fields, FIELDS(fields));
	return (uint32_t)r.number;
}

/* One hand-off block. */
uint32_t pajurenda_handoff(const uint8_t *buffer, size_t length, uint64_t cursor,
			   uint8_t *answer, size_t answer_length)
{
	if (answer_length < PAJURENDA_HANDOFF_BYTES)
		return PAJURENDA_SHORT;
	const struct second_block b = second_handoff_step(buffer, length, cursor);
	const uint64_t fields[] = { b.number, b.next, b.place, b.type, b.length,
				    b.kind, b.a, b.b, b.c, b.d };
	put_fields(answer, fields, FIELDS(fields));
	return (uint32_t)b.number;
}

/* The whole list of them. */
uint32_t pajurenda_handoffs(const uint8_t *buffer, size_t length,
			    uint8_t *answer, size_t answer_length)
{
	if (answer_length < PAJURENDA_HANDOFFS_BYTES)
		return PAJURENDA_SHORT;
	const struct second_list r = second_handoffs(buffer, length);
	const uint64_t fields[] = { r.number, r.place, r.count };
	put_fields(answer, fields, FIELDS(fields));
	return (uint32_t)r.number;
}

/* The free ranges, written where there is room for as many as can be. */
uint32_t pajurenda_map(const uint8_t *buffer, size_t length,
		       uint8_t *map, size_t map_length,
		       uint8_t *answer, size_t answer_length)
{
	struct second_map r = { .number = PAJURENDA_SHORT };
	if (answer_length < PAJURENDA_MAP_BYTES)
		return PAJURENDA_SHORT;
	if (map_length >= PAJURENDA_MAP_ROOM)
		r = second_map(buffer, length);
	for (size_t i = 0; i < r.count; i++) {
		put_number(map, PAJURENDA_FREE_BYTES * i, 8, r.range[i].first);
		put_number(map, PAJURENDA_FREE_BYTES * i + 8, 8, r.range[i].last);
	}
	const uint64_t fields[] = { r.number, r.count };
	put_fields(answer, fields, FIELDS(fields));
	return (uint32_t)r.number;
}

/* An image's place in them. */
uint32_t pajurenda_lowest_base(const uint8_t *buffer, size_t length, uint64_t size,
			       uint8_t *answer, size_t answer_length)
{
	if (answer_length < PAJURENDA_LOWEST_BYTES)
		return PAJURENDA_SHORT;
	const struct second_place r = second_place(buffer, length, size);
	const uint64_t fields[] = { r.number, r.base };
	put_fields(answer, fields, FIELDS(fields));
	return (uint32_t)r.number;
}

/* A pile as one sheet. */
uint32_t pajurenda_fold(const uint8_t *pile, size_t pile_length,
			uint8_t *output, size_t output_length,
			uint8_t *answer, size_t answer_length)
{
	if (answer_length < PAJURENDA_FOLD_BYTES)
		return PAJURENDA_SHORT;
	const struct second_folded r = second_fold(pile, pile_length, output, output_length);
	const uint64_t fields[] = { r.number, r.length, r.count };
	put_fields(answer, fields, FIELDS(fields));
	return (uint32_t)r.number;
}

/* Bytes as a text. */
uint32_t pajurenda_hex_export(const uint8_t *bytes, size_t length, uint64_t base,
			      uint8_t *text, size_t text_length,
			      uint8_t *answer, size_t answer_length)
{
	if (answer_length < PAJURENDA_EXPORT_BYTES)
		return PAJURENDA_SHORT;
	const struct second_exported r = second_export(bytes, length, base, text, text_length);
	const uint64_t fields[] = { r.number, r.length };
	put_fields(answer, fields, FIELDS(fields));
	return (uint32_t)r.number;
}

/* A text as bytes. */
uint32_t pajurenda_hex_import(const uint8_t *text, size_t text_length,
			      uint8_t *bytes, size_t length,
			      uint8_t *answer, size_t answer_length)
{
	if (answer_length < PAJURENDA_IMPORT_BYTES)
		return PAJURENDA_SHORT;
	const struct second_imported r = second_import(text, text_length, bytes, length);
	const uint64_t fields[] = { r.number, r.base, r.length };
	put_fields(answer, fields, FIELDS(fields));
	return (uint32_t)r.number;
}

/* The digest of bytes. */
uint32_t pajurenda_sha256(const uint8_t *bytes, size_t length, uint8_t *answer, size_t answer_length)
{
	if (answer_length < PAJURENDA_SHA256_BYTES)
		return PAJURENDA_SHORT;
	second_sha256(bytes, length, answer);
	return PAJURENDA_ACCEPTED;
}

/* The header's own. */
uint32_t pajurenda_version(void)
{
	return PAJURENDA_VERSION_NUMBER;
}

/* One call in a boot log; our own state number is the state. */
uint32_t pajurenda_station(uint8_t *state, size_t state_length, uint64_t call, uint64_t notification)
{
	if (state_length < PAJURENDA_STATION_BYTES)
		return PAJURENDA_SHORT;
	const struct second_stepped r = second_station(get_number(state, 0, PAJURENDA_STATION_BYTES), call, notification);
	put_number(state, 0, PAJURENDA_STATION_BYTES, r.state);
	return (uint32_t)r.number;
}

/* A boot log begins. */
uint32_t pajurenda_station_reset(uint8_t *state, size_t state_length)
{
	if (state_length < PAJURENDA_STATION_BYTES)
		return PAJURENDA_SHORT;
	put_number(state, 0, PAJURENDA_STATION_BYTES, AT_RESET);
	return PAJURENDA_ACCEPTED;
}
