/* The header's inline helpers, tried as C and as C++; exit status 0 where all is as it should be. */
#include "pajurenda.h"

#include <stdio.h>
#include <string.h>

static int checks, wrong;

/* One check. */
static void check(int right, const char *what)
{
	checks++;
	if (right)
		return;
	fprintf(stderr, "header: %s\n", what);
	wrong++;
}

/* The names, 0 to 28; 21 has none. */
static const char *const names[] = {
	"ACCEPTED", "LENGTH", "VOLUME", "FILE", "SECTION", "HEADER", "SIZE", "COMPONENT", "BASE", "TABLE", "CONFIG",
	"UPD", "TYPE", "PLACE", "OVERLAP", "SHEET", "IDENTITY", "FIELD", "NEWBASE", "PAIR", "ROOM",
	"unknown", "RESERVED", "OWNERS", "OWNER", "MODULE", "WORD", "RELOCATION", "READ-ONLY",
};

/* The names of 30 to 33, and of the kinds of blocks. */
static const char *const handoff_names[] = { "BLOCK", "FIRST", "NOTHING", "KIND" };
static const char *const kind_names[] = { "nothing", "handoff", "resource", "guid", "unknown", "end", "nothing" };

/* The same for hand-off blocks; a step's answer gives its next cursor and its end. */
static void try_handoff(void)
{
	uint8_t answer[PAJURENDA_HANDOFF_BYTES] = { 0 };
	for (uint32_t i = 30; i <= 33; i++) {
		check(strcmp(pajurenda_name(i), handoff_names[i - 30]) == 0, "a name");
		check(!pajurenda_has_index(i), "an index of a block");
		check(strlen(pajurenda_sentence(i)) > 10, "a sentence");
		for (uint32_t j = 0; j < i; j++)
			check(strcmp(pajurenda_sentence(i), pajurenda_sentence(j)) != 0, "two sentences alike");
	}
	for (uint64_t kind = 0; kind <= 6; kind++) {
		check(strcmp(pajurenda_kind_name(kind), kind_names[kind]) == 0, "a kind's name");
		answer[40] = (uint8_t)kind;
		check(pajurenda_is_end(answer) == (kind == 5), "an end");
	}
	answer[41] = 1;
	check(!pajurenda_is_end(answer), "an end of no kind");
	answer[8] = 56;
	answer[15] = 255;
	check(pajurenda_next(answer) == 0xFF00000000000038u, "the next cursor");
	check(pajurenda_field(answer, PAJURENDA_HANDOFF_SIZE) == 0, "a resource's size");
	check(PAJURENDA_HANDOFF_SIZE + 8 == PAJURENDA_HANDOFF_BYTES, "a step's last field");
	check(PAJURENDA_HANDOFFS_COUNT + 8 == PAJURENDA_HANDOFFS_BYTES, "a walk's last field");
}

/* The station's names: each its own, and none for what there is none of. */
static void try_station(void)
{
	static const char *const calls[] = { "unknown", "TempRamInit", "MemoryInit", "TempRamExit", "SiliconInit", "NotifyPhase", "unknown" };
	for (uint64_t call = 0; call <= 6; call++)
		check(strcmp(pajurenda_call_name(call), calls[call]) == 0, "a call's name");
	check(strcmp(pajurenda_call_name(0x100000001u), "unknown") == 0, "a name of a call cut down");
	for (uint64_t number = 0; number <= 0x200; number++) {
		const char *wanted = number == 0x20 ? "AfterPciEnumeration" : number == 0x40 ? "ReadyToBoot" : number == 0xF0 ? "EndOfFirmware" : "unknown";
		check(strcmp(pajurenda_notification_name(number), wanted) == 0, "a notification's name");
	}
	check(strcmp(pajurenda_name(40), "ORDER") == 0 && strcmp(pajurenda_name(41), "UNKNOWN") == 0, "the names of 40 and 41");
	for (uint32_t i = 40; i <= 41; i++) {
		check(strlen(pajurenda_sentence(i)) > 10 && !pajurenda_has_index(i), "40 and 41");
		for (uint32_t j = 0; j < i; j++)
			check(strcmp(pajurenda_sentence(i), pajurenda_sentence(j)) != 0, "two sentences alike");
	}
	check(PAJURENDA_STATION_BYTES == 8, "the length of a state");
}

/* The maps' numbers, answers and ranges. */
static void try_map(void)
{
	static const char *const names[] = { "ABOVE", "MANY", "IMAGE", "NOWHERE" };
	uint8_t map[2 * PAJURENDA_FREE_BYTES] = { 0 };
	for (uint32_t i = 34; i <= 37; i++) {
		check(strcmp(pajurenda_name(i), names[i - 34]) == 0 && !pajurenda_has_index(i), "the names of 34 to 37");
		check(strlen(pajurenda_sentence(i)) > 10, "the sentences of 34 to 37");
		for (uint32_t j = 0; j < i; j++)
			check(strcmp(pajurenda_sentence(i), pajurenda_sentence(j)) != 0, "two sentences alike");
	}
	check(PAJURENDA_MAP_COUNT + 8 == PAJURENDA_MAP_BYTES, "the length of a map's answer");
	check(PAJURENDA_LOWEST_BASE + 8 == PAJURENDA_LOWEST_BYTES, "the length of a place's answer");
	check(PAJURENDA_MAP_ROOM == 128 * PAJURENDA_FREE_BYTES, "the room of a map");
	map[16] = 1;
	map[23] = 0x80;
	map[24] = 2;
	map[31] = 0xFF;
	check(pajurenda_free_first(map, 0) == 0 && pajurenda_free_last(map, 0) == 0, "the first range of a map");
	check(pajurenda_free_first(map, 1) == 0x8000000000000001 && pajurenda_free_last(map, 1) == 0xFF00000000000002, "the second");
}

/* 29, and the answer of a fold. */
static void try_fold(void)
{
	check(strcmp(pajurenda_name(29), "FOLDED") == 0, "the name of 29");
	check(strlen(pajurenda_sentence(29)) > 10 && !pajurenda_has_index(29), "29");
	for (uint32_t j = 0; j < 101; j++)
		check(j == 29 || strcmp(pajurenda_sentence(29), pajurenda_sentence(j)) != 0, "two sentences alike");
	check(PAJURENDA_FOLD_ENTRIES + 8 == PAJURENDA_FOLD_BYTES, "the length of a fold's answer");
}

/* 50 and 53, the answers of the Intel HEX calls and of the digest's. */
static void try_hex(void)
{
	static const uint32_t numbers[] = { 50, 53 };
	check(strcmp(pajurenda_name(50), "TEXT") == 0 && strcmp(pajurenda_name(53), "SPACE") == 0, "the names of 50 and 53");
	for (size_t i = 0; i < 2; i++) {
		check(strlen(pajurenda_sentence(numbers[i])) > 10 && !pajurenda_has_index(numbers[i]), "50 and 53");
		for (uint32_t j = 0; j < numbers[i]; j++)
			check(strcmp(pajurenda_sentence(numbers[i]), pajurenda_sentence(j)) != 0, "two sentences alike");
	}
	check(PAJURENDA_EXPORT_LENGTH + 8 == PAJURENDA_EXPORT_BYTES, "the length of an export's answer");
	check(PAJURENDA_IMPORT_LENGTH + 8 == PAJURENDA_IMPORT_BYTES, "the length of an import's answer");
	check(PAJURENDA_MOST_HEX == 12 * 1048576 + 2 * 16777216 + 16 * 257 + 12, "the longest text");
	check(PAJURENDA_SHA256_BYTES == 32, "the length of a digest");
}

/* Each number has its name and a sentence that no other has. */
static void try_numbers(void)
{
	for (uint32_t i = 0; i <= 28; i++) {
		check(strcmp(pajurenda_name(i), names[i]) == 0, "a name");
		check(pajurenda_has_index(i) == (i == 12 || i == 13 || i == 14 || i == 22), "an index");
		if (i == 21)
			continue;
		check(strlen(pajurenda_sentence(i)) > 10, "a sentence");
		for (uint32_t j = 0; j < i; j++)
			check(strcmp(pajurenda_sentence(i), pajurenda_sentence(j)) != 0, "two sentences alike");
	}
	check(strcmp(pajurenda_name(PAJURENDA_SHORT), "SHORT") == 0, "the name of 100");
	check(strcmp(pajurenda_sentence(PAJURENDA_SHORT), "unknown") != 0, "the sentence of 100");
	static const uint32_t others[] = { 21, 38, 39, 42, 49, 51, 52, 54, 99, 101, 65536, 65537, 4294967295u };
	for (size_t i = 0; i < sizeof others / sizeof others[0]; i++) {
		check(strcmp(pajurenda_name(others[i]), "unknown") == 0, "a name of no answer");
		check(strcmp(pajurenda_sentence(others[i]), "unknown") == 0, "a sentence of no answer");
		check(!pajurenda_has_index(others[i]), "an index of no answer");
	}
}

/* The signed field holds a value, given in two's complement. */
static void try_signed(uint64_t stored, int64_t value)
{
	uint8_t answer[PAJURENDA_RELEASE_BYTES];
	memset(answer, 0xA5, sizeof answer);
	for (unsigned i = 0; i < 8; i++)
		answer[PAJURENDA_RELEASE_MOVE + i] = (uint8_t)(stored >> (8 * i));
	check(pajurenda_signed_field(answer, PAJURENDA_RELEASE_MOVE) == value, "a signed field");
	check(pajurenda_field(answer, PAJURENDA_RELEASE_MOVE) == stored, "a field");
}

/* Fields stand where the offsets say, little-endian. */
static void try_fields(void)
{
	uint8_t answer[PAJURENDA_READ_BYTES];
	for (size_t i = 0; i < sizeof answer; i++)
		answer[i] = (uint8_t)(i + 1);
	check(pajurenda_field(answer, PAJURENDA_READ_NUMBER) == 0x0807060504030201u, "the first field");
	check(pajurenda_field(answer, PAJURENDA_READ_END) == 0x5857565554535251u, "the field before the last");
	check(pajurenda_field(answer, PAJURENDA_READ_EXTENDED) == 0x605F5E5D5C5B5A59u, "the last field");
	check(sizeof answer == 96, "the length of a reading");
	check(pajurenda_identity(answer) == answer + 32, "the identity");
	check(pajurenda_number(answer, 0) == 0 && pajurenda_number(answer, 3) == 0x030201, "a number");
	try_signed(0, 0);
	try_signed(1, 1);
	try_signed(UINT64_MAX, -1);
	try_signed(4293394432u, 4293394432);
	try_signed((uint64_t)0 - 4293394432u, -4293394432);
	try_signed((uint64_t)INT64_MAX, INT64_MAX);
	try_signed((uint64_t)INT64_MAX + 1, INT64_MIN);
}

/* The empty sheet has the three parts of a reading, and no byte after its 16; a sheet's fields stand where the offsets say. */
static void try_sheets(void)
{
	static const uint8_t wanted[] = { 33, 34, 35, 36, 37, 38, 39, 40, 41, 42, 43, 44, 0, 0, 89, 90, 0x77 };
	uint8_t answer[PAJURENDA_READ_BYTES], sheet[PAJURENDA_EMPTY_SHEET + 1];
	for (size_t i = 0; i < sizeof answer; i++)
		answer[i] = (uint8_t)(i + 1);
	memset(sheet, 0x77, sizeof sheet);
	pajurenda_empty_sheet(answer, sheet);
	check(memcmp(sheet, wanted, sizeof wanted) == 0 && sizeof sheet == sizeof wanted, "the empty sheet");
	check(pajurenda_sheet_identity(answer) == answer + 16, "a sheet's identity");
	check(pajurenda_field(answer, PAJURENDA_SHEET_COUNT) == 0x100F0E0D0C0B0A09u, "a sheet's count");
	check(pajurenda_field(answer, PAJURENDA_SHEET_REVISION) == 0x201F1E1D1C1B1A19u, "a sheet's revision");
	check(pajurenda_field(answer, PAJURENDA_SHEET_EXTENDED) == 0x2827262524232221u, "a sheet's last field");
	check(PAJURENDA_SHEET_EXTENDED + 8 == PAJURENDA_SHEET_BYTES, "the length of a sheet's answer");
	check(PAJURENDA_RELEASE_MOVE + 8 == PAJURENDA_RELEASE_BYTES, "the length of a release's answer");
}

/* A range is eight bytes, each number's low byte first; all settings of a reading are one range or none. */
static void try_owners(void)
{
	static const uint8_t wanted[] = { 0x44, 0x33, 0x22, 0x11, 0x66, 0x55, 0x88, 0x77, 0x99 };
	uint8_t answer[PAJURENDA_READ_BYTES] = { 0 }, list[PAJURENDA_RANGE_BYTES + 1];
	memset(list, 0x99, sizeof list);
	pajurenda_put_range(list, 0x11223344, 0x5566, 0x7788);
	check(memcmp(list, wanted, sizeof wanted) == 0 && sizeof list == sizeof wanted, "a range");
	answer[PAJURENDA_READ_COMPONENT] = 4;
	answer[PAJURENDA_READ_SIZE + 2] = 1;
	check(pajurenda_one_owner(answer, 2, list) == 8, "the length of all settings of the largest region");
	check(memcmp(list, "\x20\0\0\0\xE0\xFF\2\0\x99", 9) == 0, "all settings of the largest region");
	answer[PAJURENDA_READ_SIZE + 2] = 0;
	for (unsigned size = 0; size < 256; size++) {
		answer[PAJURENDA_READ_SIZE] = (uint8_t)size;
		memset(list, 0x99, sizeof list);
		check(pajurenda_one_owner(answer, 1, list) == (size > 32 ? 8u : 0u), "the length of all settings");
		check(size > 32 ? list[0] == 32 && list[4] == size - 32 && list[6] == 1 : list[0] == 0x99, "all settings");
	}
	check(PAJURENDA_MOST_RANGES == 64, "the most ranges");
}

/* The edition by number and component; edition 1 has no settings to own, whatever stands where z would. */
static void try_edition(void)
{
	uint8_t answer[PAJURENDA_READ_BYTES] = { 0 }, list[PAJURENDA_RANGE_BYTES];
	check(pajurenda_edition(answer) == 1, "edition 1");
	memset(answer + PAJURENDA_READ_SIZE, 0xFF, 4);
	memset(list, 0x99, sizeof list);
	check(pajurenda_one_owner(answer, 1, list) == 0 && list[0] == 0x99, "no settings of edition 1");
	for (uint8_t component = 1; component <= 4; component++) {
		answer[PAJURENDA_READ_COMPONENT] = component;
		check(pajurenda_edition(answer) == 2, "edition 2");
	}
	answer[PAJURENDA_READ_NUMBER] = PAJURENDA_HEADER;
	check(pajurenda_edition(answer) == 0, "no edition of a refused image");
	check(pajurenda_one_owner(answer, 1, list) == 0 && list[0] == 0x99, "no settings of a refused image");
}

/* The parts of a version from its two numbers. */
static void try_parts(uint64_t revision, uint64_t extended, const char *version)
{
	char parts[64];
	snprintf(parts, sizeof parts, "%u.%u.%u.%u", pajurenda_image_major(revision), pajurenda_image_minor(revision),
		 pajurenda_image_revision(revision, extended), pajurenda_image_build(revision, extended));
	check(strcmp(parts, version) == 0, version);
}

/* Each byte of them alone, all of them different, and all full. */
static void try_image_version(void)
{
	try_parts(0, 0, "0.0.0.0");
	try_parts(0x01020304, 0, "1.2.3.4");
	try_parts(0xFF000000, 0, "255.0.0.0");
	try_parts(0x00FF0000, 0, "0.255.0.0");
	try_parts(0x0000FF00, 0, "0.0.255.0");
	try_parts(0x000000FF, 0, "0.0.0.255");
	try_parts(0, 0x00FF, "0.0.0.65280");
	try_parts(0, 0xFF00, "0.0.65280.0");
	try_parts(0x01020304, 0x0506, "1.2.1283.1540");
	try_parts(0xFFFFFFFF, 0xFFFF, "255.255.65535.65535");
}

/* A place of the list: kind and position. */
static void try_place(uint32_t stored, int stray, uint32_t position)
{
	uint8_t places[12];
	memset(places, 0x5A, sizeof places);
	for (unsigned i = 0; i < 4; i++)
		places[4 + i] = (uint8_t)(stored >> (8 * i));
	check(pajurenda_place(places, 1) == stored, "a place");
	check(pajurenda_place(places, 2) == 0x5A5A5A5A, "the place after");
	check(pajurenda_is_stray(pajurenda_place(places, 1)) == stray, "a stray");
	check(pajurenda_position(pajurenda_place(places, 1)) == position, "a position");
}

/* An entry of the list of contents: its code, its place, and how wide its word is. */
static void try_contents(void)
{
	static const unsigned widths[] = { 0, 0, 0, 4, 8, 4, 8, 4, 4, 0 };
	for (unsigned code = 0; code < sizeof widths / sizeof widths[0]; code++)
		for (uint32_t place = 0; place < 0x1000000; place += 0xFFFFFF) {
			const uint32_t entry = (uint32_t)code << 24 | place;
			check(pajurenda_content(entry) == code && pajurenda_content_place(entry) == place, "an entry's code and place");
			check(pajurenda_content_width(entry) == widths[code], "a word's width");
		}
	check(pajurenda_content_width(0xFFFFFFFFu) == 0 && pajurenda_content(0xFFFFFFFFu) == 255, "an entry of no code");
	check(PAJURENDA_CONTENTS_ENTRIES + 8 == PAJURENDA_CONTENTS_BYTES, "the length of the contents' answer");
	check(PAJURENDA_CONTENT_FILE == 1 && PAJURENDA_CONTENT_PATCH_WORD == 8, "the first and the last code");
}

/* The version's parts make up the whole. */
static void try_version(void)
{
	char version[32];
	snprintf(version, sizeof version, "%d.%d.%d", PAJURENDA_VERSION_MAJOR, PAJURENDA_VERSION_MINOR, PAJURENDA_VERSION_PATCH);
	check(strcmp(version, PAJURENDA_VERSION) == 0, "the version");
	check(PAJURENDA_VERSION_NUMBER >> 16 == PAJURENDA_VERSION_MAJOR && (PAJURENDA_VERSION_NUMBER >> 8 & 255) == PAJURENDA_VERSION_MINOR &&
	      (PAJURENDA_VERSION_NUMBER & 255) == PAJURENDA_VERSION_PATCH, "the version in one word");
}

int main(void)
{
	try_numbers();
	try_handoff();
	try_station();
	try_map();
	try_fold();
	try_hex();
	try_fields();
	try_image_version();
	try_sheets();
	try_owners();
	try_edition();
	try_place(0, 0, 0);
	try_place(16777215, 0, 16777215);
	try_place(16777216, 1, 0);
	try_place(33554431, 1, 16777215);
	try_contents();
	try_version();
	printf("%d\n", checks);
	return wrong == 0 ? 0 : 1;
}
