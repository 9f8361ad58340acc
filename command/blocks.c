/*
 * One hand-off block shown: the library says what it is and which data it has; the names of the
 * types are the PI specification's.
 */
#include "blocks.h"

#include <inttypes.h>
#include <stdio.h>

#include "letters.h"
#include "pajurenda.h"
#include "show.h"

/* The name of whatever has none. */
static const char unknown[] = "UNKNOWN";

/* A block's type by its name; no name says that the library takes such a block apart. */
static const char *name_type(uint64_t type)
{
	static const char *const names[] = {
		[0x1] = "HANDOFF",
		[0x2] = "MEMORY_ALLOCATION",
		[0x3] = "RESOURCE_DESCRIPTOR",
		[0x4] = "GUID_EXTENSION",
		[0x5] = "FV",
		[0x6] = "CPU",
		[0x7] = "MEMORY_POOL",
		[0x9] = "FV2",
		[0xA] = "LOAD_PEIM_UNUSED",
		[0xB] = "UEFI_CAPSULE",
		[0xC] = "FV3",
	};
	if (type == 0xFFFE)
		return "UNUSED";
	if (type == 0xFFFF)
		return "END_OF_HOB_LIST";
	return type < sizeof names / sizeof names[0] && names[type] != NULL ? names[type] : unknown;
}

/* A resource's type by its name. */
static const char *name_resource(uint64_t type)
{
	static const char *const names[] = {
		"SYSTEM_MEMORY", "MEMORY_MAPPED_IO", "IO", "FIRMWARE_DEVICE",
		"MEMORY_MAPPED_IO_PORT", "MEMORY_RESERVED", "IO_RESERVED", "MEMORY_UNACCEPTED",
	};
	return type < sizeof names / sizeof names[0] ? names[type] : unknown;
}

/* The GUID after a block's header: the library has seen that resource and GUID blocks have it. */
static void show_guid_of(const struct bytes *dump, const uint8_t *block)
{
	const uint64_t at = pajurenda_field(block, PAJURENDA_HANDOFF_PLACE) + 8;
	if (has_bytes(dump, at, 16))
		show_guid(stdout, dump->at + at);
}

/* The last byte of a resource that isn't empty: up to 65 bits, none of them cut off. */
static void show_last(const uint8_t *block)
{
	const uint64_t start = pajurenda_field(block, PAJURENDA_HANDOFF_START);
	const uint64_t more = pajurenda_field(block, PAJURENDA_HANDOFF_SIZE) - 1;
	if (more > UINT64_MAX - start)
		printf("0x1%016" PRIX64, start + more);
	else
		printf("0x%08" PRIX64, start + more);
}

/* ---- for a person ---- */

static void say_resource(const struct bytes *dump, const uint8_t *block)
{
	const uint64_t type = pajurenda_field(block, PAJURENDA_HANDOFF_RESOURCE);
	const uint64_t size = pajurenda_field(block, PAJURENDA_HANDOFF_SIZE);
	printf(" resource %" PRIu64 " %s attributes 0x%08" PRIX64, type, name_resource(type),
	       pajurenda_field(block, PAJURENDA_HANDOFF_ATTRIBUTES));
	printf(" start 0x%08" PRIX64 " size %" PRIu64 " last ",
	       pajurenda_field(block, PAJURENDA_HANDOFF_START), size);
	if (size == 0)
		fputs("none", stdout);
	else
		show_last(block);
	fputs(" owner ", stdout);
	show_guid_of(dump, block);
}

static void say_guid_data(const struct bytes *dump, const uint8_t *block)
{
	fputs(" name ", stdout);
	show_guid_of(dump, block);
	printf(" data at %" PRIu64 " length %" PRIu64,
	       pajurenda_field(block, PAJURENDA_HANDOFF_DATA_PLACE),
	       pajurenda_field(block, PAJURENDA_HANDOFF_DATA_LENGTH));
}

/* Place, type by its name or else by its number, length, and the kind's data. */
void show_line(const struct bytes *dump, const uint8_t *block)
{
	const uint64_t type = pajurenda_field(block, PAJURENDA_HANDOFF_TYPE);
	const uint64_t kind = pajurenda_field(block, PAJURENDA_HANDOFF_KIND);
	printf("%" PRIu64 " %s", pajurenda_field(block, PAJURENDA_HANDOFF_PLACE), name_type(type));
	if (name_type(type) == unknown)
		printf(" 0x%04" PRIX64, type);
	printf(" length %" PRIu64, pajurenda_field(block, PAJURENDA_HANDOFF_LENGTH));
	if (kind == PAJURENDA_BLOCK_RESOURCE)
		say_resource(dump, block);
	else if (kind == PAJURENDA_BLOCK_GUID)
		say_guid_data(dump, block);
	else if (kind == PAJURENDA_BLOCK_UNKNOWN)
		fputs(" unknown kind", stdout);
	putchar('\n');
}

/* ---- for a program: JSON; many readers cut its numbers from 2^53 on ---- */

#define MOST_NUMBER ((uint64_t)1 << 53)

/* What stands between quotes is ours or hex digits: nothing needs an escape. */
static void write_resource(const struct bytes *dump, const uint8_t *block)
{
	const uint64_t type = pajurenda_field(block, PAJURENDA_HANDOFF_RESOURCE);
	const uint64_t size = pajurenda_field(block, PAJURENDA_HANDOFF_SIZE);
	printf(", \"resource\": %" PRIu64 ", \"resource_name\": \"%s\"", type, name_resource(type));
	printf(", \"attributes\": \"0x%08" PRIX64 "\", \"start\": \"0x%08" PRIX64 "\"",
	       pajurenda_field(block, PAJURENDA_HANDOFF_ATTRIBUTES),
	       pajurenda_field(block, PAJURENDA_HANDOFF_START));
	if (size < MOST_NUMBER)
		printf(", \"size\": %" PRIu64, size);
	else
		fputs(", \"size\": null", stdout);
	printf(", \"size_hex\": \"0x%08" PRIX64 "\", \"last\": ", size);
	fputs(size == 0 ? "null" : "\"", stdout);
	if (size != 0)
		show_last(block);
	printf("%s, \"owner\": \"", size == 0 ? "" : "\"");
	show_guid_of(dump, block);
	putchar('"');
}

static void write_guid_data(const struct bytes *dump, const uint8_t *block)
{
	fputs(", \"guid\": \"", stdout);
	show_guid_of(dump, block);
	printf("\", \"data_place\": %" PRIu64 ", \"data_length\": %" PRIu64,
	       pajurenda_field(block, PAJURENDA_HANDOFF_DATA_PLACE),
	       pajurenda_field(block, PAJURENDA_HANDOFF_DATA_LENGTH));
}

/* The same fields in the same order for every block, then the kind's. */
void show_object(const struct bytes *dump, const uint8_t *block, const char *before)
{
	const uint64_t type = pajurenda_field(block, PAJURENDA_HANDOFF_TYPE);
	const uint64_t kind = pajurenda_field(block, PAJURENDA_HANDOFF_KIND);
	printf("%s\n    {\"place\": %" PRIu64 ", \"type\": %" PRIu64 ", \"name\": \"%s\"", before,
	       pajurenda_field(block, PAJURENDA_HANDOFF_PLACE), type, name_type(type));
	printf(", \"length\": %" PRIu64 ", \"kind\": \"%s\"",
	       pajurenda_field(block, PAJURENDA_HANDOFF_LENGTH), pajurenda_kind_name(kind));
	if (kind == PAJURENDA_BLOCK_RESOURCE)
		write_resource(dump, block);
	else if (kind == PAJURENDA_BLOCK_GUID)
		write_guid_data(dump, block);
	putchar('}');
}
