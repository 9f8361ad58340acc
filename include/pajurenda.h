/*
 * pajurenda: reads, releases (sets and moves) and audits one firmware support image (FSP) in lent
 * memory, folds old release sheets into one, reads the list of hand-off blocks that firmware leaves
 * after a boot, makes the map of free memory from it and finds an image's place there, follows the
 * order in which a boot calls the firmware, writes and reads the Intel HEX text of an image, and gives
 * the SHA-256 digest of any bytes.
 *
 * A slice passes as a pointer and then its length in bytes. No pointer may be null, even where the
 * length is 0. A buffer that is written (an image to release, a list of places, an answer) must not
 * overlap any other buffer of the same call. The calls keep nothing between them and hold no memory
 * of their own but the stack: a reading, a release or an audit takes up to 192 KiB of it, which a
 * thread with a small stack must have.
 *
 * Each call writes its answer into the caller's answer buffer: 64-bit little-endian numbers at the
 * offsets named below, from the buffer's first byte. Bytes after the answer are kept. The call
 * returns the answer's number: 0 where accepted, else that of the refusal (images 1 to 20 and 22 to
 * 28, folds 15, 16 and 29, hand-off blocks 30 to 33, their memory 34 to 37, Intel HEX 1, 18, 50 and
 * 53). Where the answer buffer is shorter than the answer, the call returns PAJURENDA_SHORT and
 * nothing at all is written anywhere. The calls of the station have no answer but the number they
 * return (40 and 41 are theirs), and a state in the answer buffer's place; the answer of
 * pajurenda_sha256 is the digest's bytes and nothing else.
 *
 * A refused call changes no byte of an image, of a list, of a state or of an output.
 *
 * Small inline functions at the end read a field of an answer, a place of the audit's list and an
 * entry of the list of contents, make an image's empty sheet and the owner list that gives all its
 * settings to one owner, take its version apart, and give each number its name and its rule in a
 * sentence, and each kind of block and each call of the station its name. C99 and later, and C++.
 */
#ifndef PAJURENDA_H
#define PAJURENDA_H

#include <stddef.h>
#include <stdint.h>

#ifdef __cplusplus
extern "C" {
#endif

/* The version of header and library: the whole, and its three numbers. */
#define PAJURENDA_VERSION "0.15.0"
#define PAJURENDA_VERSION_MAJOR 0
#define PAJURENDA_VERSION_MINOR 15
#define PAJURENDA_VERSION_PATCH 0

/* The three in one word; the library's own, at run time, is that of pajurenda_version. */
#define PAJURENDA_VERSION_NUMBER \
	((uint32_t)(65536 * PAJURENDA_VERSION_MAJOR + 256 * PAJURENDA_VERSION_MINOR + PAJURENDA_VERSION_PATCH))

/* The answer's number. A check is made only if all earlier ones passed. */
enum {
	PAJURENDA_ACCEPTED = 0,
	PAJURENDA_LENGTH = 1,     /* the image is shorter than 72 or longer than 16,777,216 bytes */
	PAJURENDA_VOLUME = 2,     /* the volume's header */
	PAJURENDA_FILE = 3,       /* the header file: place, name, attribute, sum or size */
	PAJURENDA_SECTION = 4,    /* the header file's section: type or size */
	PAJURENDA_HEADER = 5,     /* the FSP header: mark, revision or length */
	PAJURENDA_SIZE = 6,       /* the image size in the header isn't the lent length */
	PAJURENDA_COMPONENT = 7,  /* the component is none of T, M, S, I */
	PAJURENDA_BASE = 8,       /* the image's own base isn't legal */
	PAJURENDA_TABLE = 9,      /* no acceptable patch table */
	PAJURENDA_CONFIG = 10,    /* the configuration region: size or place */
	PAJURENDA_UPD = 11,       /* the region's mark isn't that of the component */
	PAJURENDA_TYPE = 12,      /* a patch entry's type; with the entry's index */
	PAJURENDA_PLACE = 13,     /* a patch word outside the image; with the entry's index */
	PAJURENDA_OVERLAP = 14,   /* a patch word where none may be; with the entry's index */
	PAJURENDA_SHEET = 15,     /* the release sheet's own form */
	PAJURENDA_IDENTITY = 16,  /* the sheet is for another identity, revision or extended number */
	PAJURENDA_FIELD = 17,     /* a setting outside the region's settings part */
	PAJURENDA_NEWBASE = 18,   /* the new base isn't legal */
	PAJURENDA_PAIR = 19,      /* the two images' lengths differ */
	PAJURENDA_ROOM = 20,      /* more differences than places, or more contents than the list has */
	PAJURENDA_RESERVED = 22,  /* a patch entry's bits 30 to 28; with its index; after 12 */
	PAJURENDA_OWNERS = 23,    /* the owner list, or a caller who is no owner; after 15 */
	PAJURENDA_OWNER = 24,     /* a byte of the sheet that isn't the caller's; after 17 */
	PAJURENDA_MODULE = 25,    /* a file, a section, a module or a relocation block; after 14 */
	PAJURENDA_WORD = 26,      /* a word of the move where none may be; after 25 */
	PAJURENDA_RELOCATION = 27, /* a relocation entry's type; after 26 */
	PAJURENDA_READ_ONLY = 28, /* an edition 1 image, which is read and audited alone; after 27 */
	PAJURENDA_FOLDED = 29,    /* the folded sheet is too large for a sheet, or for the output */
	PAJURENDA_BLOCK = 30,     /* a hand-off block's header or length; after 32 */
	PAJURENDA_FIRST = 31,     /* the first block isn't the handoff block of 56 bytes */
	PAJURENDA_NOTHING = 32,   /* no byte is left where a block should stand; before 30 */
	PAJURENDA_KIND = 33,      /* a resource, GUID or end block of a length it can't have */
	PAJURENDA_ABOVE = 34,     /* a range of memory that ends above 2^64; after 33 */
	PAJURENDA_MANY = 35,      /* more than 128 ranges of memory */
	PAJURENDA_IMAGE = 36,     /* an image of no bytes, or of more than 16,777,216 */
	PAJURENDA_NOWHERE = 37,   /* no place for the image in free memory below 4 GiB */
	PAJURENDA_ORDER = 40,     /* a call of a boot out of order */
	PAJURENDA_UNKNOWN = 41,   /* a call or notification that there is none of; before 40 */
	PAJURENDA_TEXT = 50,      /* a text that isn't what an export writes */
	PAJURENDA_SPACE = 53,     /* the output is too short for what is to be written */
	PAJURENDA_SHORT = 100     /* the buffer of an answer, a state or a map is too short */
};

/* Limits of document 01 in bytes, and how the places of both lists are written. */
enum {
	PAJURENDA_MOST_IMAGE = 16777216, /* the longest image */
	PAJURENDA_MOST_SHEET = 65535,    /* the longest sheet */
	PAJURENDA_MOST_HEX = 46141468,   /* the longest Intel HEX text */
	PAJURENDA_EMPTY_SHEET = 16,      /* the sheet without entries, and what stands before them */
	PAJURENDA_ENTRY_BYTES = 8,       /* an entry of a sheet: offset (4), length (2), body (2) */
	PAJURENDA_RANGE_BYTES = 8,       /* a range of an owner list: offset (4), length (2), owner (2) */
	PAJURENDA_MOST_RANGES = 64,      /* the ranges of the longest owner list */
	PAJURENDA_FREE_BYTES = 16,       /* a free range of a map: first byte (8), last byte (8) */
	PAJURENDA_MAP_ROOM = 2048,       /* what a map is lent: room for 128 free ranges */
	PAJURENDA_PLACE_BYTES = 4,       /* a place of the audit's list, little-endian */
	PAJURENDA_STRAY = 16777216       /* what a stray's place has above its position */
};

/* What an entry of the list of contents is: its code, which stands above its place's 24 bits. */
enum {
	PAJURENDA_CONTENT_FILE = 1,         /* the file that the module after it is in: its header */
	PAJURENDA_CONTENT_MODULE = 2,       /* a module: the header of its section */
	PAJURENDA_CONTENT_IMAGE_BASE_4 = 3, /* the module's image base, of 4 bytes */
	PAJURENDA_CONTENT_IMAGE_BASE_8 = 4, /* the same, of 8 */
	PAJURENDA_CONTENT_RELOCATION_4 = 5, /* a relocation word of the module, of 4 bytes */
	PAJURENDA_CONTENT_RELOCATION_8 = 6, /* the same, of 8 */
	PAJURENDA_CONTENT_BASE_WORD = 7,    /* the image's base word, of 4 bytes: the first entry */
	PAJURENDA_CONTENT_PATCH_WORD = 8    /* a patch word, of 4 bytes */
};

/*
 * The answer of pajurenda_read; where refused, zeros after number and index. An accepted image of
 * edition 1 (header revision 1) has component, n, E and extended number 0. Its c and z are handed
 * over as they stand: no rule was asked of them, they may be any numbers and mean nothing there, so
 * that nothing may be indexed, measured or allocated by them. pajurenda_edition tells the editions
 * apart.
 */
enum {
	PAJURENDA_READ_NUMBER = 0,
	PAJURENDA_READ_INDEX = 8,      /* the first patch entry at fault for 12, 22, 13, 14, else 0 */
	PAJURENDA_READ_HEADER = 16,    /* H, the position of the FSP header */
	PAJURENDA_READ_COMPONENT = 24, /* 1 (T), 2 (M), 3 (S) or 4 (I); 0: edition 1 */
	PAJURENDA_READ_IDENTITY = 32,  /* the eight bytes at H+16, in the image's order */
	PAJURENDA_READ_REVISION = 40,  /* the image revision */
	PAJURENDA_READ_BASE = 48,      /* the base the image is at */
	PAJURENDA_READ_REGION = 56,    /* c, the position of the configuration region; edition 2 */
	PAJURENDA_READ_SIZE = 64,      /* z, the size of the configuration region; edition 2 */
	PAJURENDA_READ_COUNT = 72,     /* n, the number of patch entries */
	PAJURENDA_READ_END = 80,       /* E, the position after the last patch entry */
	PAJURENDA_READ_EXTENDED = 88,  /* the extended number, 16 bits; 0 below header revision 6 */
	PAJURENDA_READ_BYTES = 96
};

/* The answer of pajurenda_contents; 20 keeps the counts, other refusals number and index alone. */
enum {
	PAJURENDA_CONTENTS_NUMBER = 0,
	PAJURENDA_CONTENTS_INDEX = 8,
	PAJURENDA_CONTENTS_MODULES = 16, /* how many modules the image has, each with an image base */
	PAJURENDA_CONTENTS_WORDS = 24,   /* how many words a move changes, the base word among them */
	PAJURENDA_CONTENTS_ENTRIES = 32, /* how many entries the list of all of them has */
	PAJURENDA_CONTENTS_BYTES = 40
};

/* The answer of pajurenda_release; where refused, the move is 0. */
enum {
	PAJURENDA_RELEASE_NUMBER = 0,
	PAJURENDA_RELEASE_INDEX = 8,
	PAJURENDA_RELEASE_MOVE = 16, /* new base minus old, signed, in two's complement */
	PAJURENDA_RELEASE_BYTES = 24
};

/* The answer of pajurenda_sheet; where refused, zeros after the number. */
enum {
	PAJURENDA_SHEET_NUMBER = 0,
	PAJURENDA_SHEET_COUNT = 8,     /* m, the number of entries */
	PAJURENDA_SHEET_IDENTITY = 16, /* the eight bytes of the identity, in the sheet's order */
	PAJURENDA_SHEET_REVISION = 24, /* the revision it is for */
	PAJURENDA_SHEET_EXTENDED = 32, /* the extended number it is for */
	PAJURENDA_SHEET_BYTES = 40
};

/* The answer of pajurenda_setting; where refused, zeros after the number. */
enum {
	PAJURENDA_SETTING_NUMBER = 0,
	PAJURENDA_SETTING_PLACE = 8,   /* the setting's position in the image */
	PAJURENDA_SETTING_LENGTH = 16, /* its length in bytes */
	PAJURENDA_SETTING_BYTES = 24
};

/* The answer of pajurenda_audit and pajurenda_mend; 20 keeps base and counts, other refusals number and index alone. */
enum {
	PAJURENDA_AUDIT_NUMBER = 0,
	PAJURENDA_AUDIT_INDEX = 8,
	PAJURENDA_AUDIT_BASE = 16,      /* the base of the shipped image */
	PAJURENDA_AUDIT_SETTINGS = 24,  /* bytes that differ in the settings part */
	PAJURENDA_AUDIT_STRAYS = 32,    /* bytes that differ anywhere else */
	PAJURENDA_AUDIT_BITS = 40,      /* bits that differ in the settings part */
	PAJURENDA_AUDIT_EXPLAINED = 48, /* 1 exactly where accepted without strays, else 0 */
	PAJURENDA_AUDIT_BYTES = 56
};

/*
 * The answer of pajurenda_handoff. A place counts from the buffer's first byte. Where refused, next
 * is the cursor that was given, and all else after the number is 0. So is what a kind doesn't have.
 */
enum {
	PAJURENDA_HANDOFF_NUMBER = 0,
	PAJURENDA_HANDOFF_NEXT = 8,    /* the next cursor; the end block's is its own place */
	PAJURENDA_HANDOFF_PLACE = 16,  /* where the block stands */
	PAJURENDA_HANDOFF_TYPE = 24,   /* its type, 16 bits */
	PAJURENDA_HANDOFF_LENGTH = 32, /* its length, the 8 bytes of its header included */
	PAJURENDA_HANDOFF_KIND = 40,   /* PAJURENDA_BLOCK_HANDOFF and so on */
	PAJURENDA_HANDOFF_RESOURCE = 48,    /* a resource: its type, 32 bits */
	PAJURENDA_HANDOFF_ATTRIBUTES = 56,  /* a resource: its attributes, 32 bits */
	PAJURENDA_HANDOFF_START = 64,       /* a resource: its first address */
	PAJURENDA_HANDOFF_SIZE = 72,        /* a resource: how many bytes or ports from there */
	PAJURENDA_HANDOFF_DATA_PLACE = 48,  /* a GUID block: where its data stands */
	PAJURENDA_HANDOFF_DATA_LENGTH = 56, /* a GUID block: how long its data is, perhaps 0 */
	PAJURENDA_HANDOFF_BYTES = 80
};

/* The kinds of hand-off blocks. */
enum {
	PAJURENDA_BLOCK_NOTHING = 0,  /* refused */
	PAJURENDA_BLOCK_HANDOFF = 1,  /* the first block, of type 1 */
	PAJURENDA_BLOCK_RESOURCE = 2, /* type 3 */
	PAJURENDA_BLOCK_GUID = 3,     /* type 4; its name is the 16 bytes before its data */
	PAJURENDA_BLOCK_UNKNOWN = 4,  /* any other type, and a later type 1 */
	PAJURENDA_BLOCK_END = 5       /* type 0xFFFF */
};

/* The answer of pajurenda_handoffs. */
enum {
	PAJURENDA_HANDOFFS_NUMBER = 0,
	PAJURENDA_HANDOFFS_PLACE = 8,  /* where the end block stands, or the one at fault should */
	PAJURENDA_HANDOFFS_COUNT = 16, /* how many blocks, with the end block; or before the fault */
	PAJURENDA_HANDOFFS_BYTES = 24
};

/* The answer of pajurenda_map; where refused, the count is 0. */
enum {
	PAJURENDA_MAP_NUMBER = 0,
	PAJURENDA_MAP_COUNT = 8, /* how many free ranges the map has, 128 at the most */
	PAJURENDA_MAP_BYTES = 16
};

/* The answer of pajurenda_lowest_base; where refused, the base is 0. */
enum {
	PAJURENDA_LOWEST_NUMBER = 0,
	PAJURENDA_LOWEST_BASE = 8, /* the lowest base at which the image has its place */
	PAJURENDA_LOWEST_BYTES = 16
};

/* The answer of pajurenda_hex_export; where refused, the length is 0. */
enum {
	PAJURENDA_EXPORT_NUMBER = 0,
	PAJURENDA_EXPORT_LENGTH = 8, /* how many characters the text has */
	PAJURENDA_EXPORT_BYTES = 16
};

/* The answer of pajurenda_hex_import; where refused, zeros after the number. */
enum {
	PAJURENDA_IMPORT_NUMBER = 0,
	PAJURENDA_IMPORT_BASE = 8,    /* the address of the first byte */
	PAJURENDA_IMPORT_LENGTH = 16, /* how many bytes the text has */
	PAJURENDA_IMPORT_BYTES = 24
};

/* The answer of pajurenda_fold; where refused, zeros after the number. */
enum {
	PAJURENDA_FOLD_NUMBER = 0,
	PAJURENDA_FOLD_LENGTH = 8,   /* how many bytes the folded sheet has */
	PAJURENDA_FOLD_ENTRIES = 16, /* how many entries */
	PAJURENDA_FOLD_BYTES = 24
};

/* The answer of pajurenda_sha256: the digest, byte by byte as it is written in hex. */
enum { PAJURENDA_SHA256_BYTES = 32 };

/* The station: how long its state is, the calls of a boot, and the notifications of the last. */
enum {
	PAJURENDA_STATION_BYTES = 8,
	PAJURENDA_CALL_TEMP_RAM_INIT = 1,
	PAJURENDA_CALL_MEMORY_INIT = 2,
	PAJURENDA_CALL_TEMP_RAM_EXIT = 3,
	PAJURENDA_CALL_SILICON_INIT = 4,
	PAJURENDA_CALL_NOTIFY_PHASE = 5, /* with one of the three below */
	PAJURENDA_NOTIFY_AFTER_PCI_ENUMERATION = 0x20,
	PAJURENDA_NOTIFY_READY_TO_BOOT = 0x40,
	PAJURENDA_NOTIFY_END_OF_FIRMWARE = 0xF0
};

/*
 * Reads an image: number 0 and its facts, or one of the image's own refusals, which every call on an
 * image has: 1 to 12, 22, 13, 14, 25, 26, 27, looked at in this order. Of an edition 1 image (header
 * revision 1) only 1 to 6 and 8 are looked at.
 */
uint32_t pajurenda_read(const uint8_t *image, size_t length,
			uint8_t *answer, size_t answer_length);

/*
 * Lists an image's modules and the words that a move changes; the image's own refusals, then 28, 20.
 * An entry is four little-endian bytes, its place + 16,777,216 * its code: first the base word, each
 * patch word in table order, then for each module in file order its file, the module itself, its
 * image base and each of its relocation words in table order. Bytes after the last entry are kept.
 * For 20 the counts are the true ones and no byte of the list is written, so that a call with a list
 * of 0 bytes counts; 4 * entries is the length to ask again with.
 */
uint32_t pajurenda_contents(const uint8_t *image, size_t image_length,
			    uint8_t *list, size_t list_length,
			    uint8_t *answer, size_t answer_length);

/*
 * Releases an image in place: the sheet's settings, and the move of the base word, each patch word
 * and each module's image base and relocation words to the new base; the image's own refusals, then
 * 28, 15, 23, 16, 17, 24, 18. Words of 4 bytes take the move modulo 2^32, words of 8 modulo 2^64; no check
 * sum of a file or a module is mended. The sheet is for an image by three parts: identity (its bytes 0
 * to 7), revision (8 to 11) and extended number (14 and 15; older sheets have 0 there). The empty sheet
 * (pajurenda_empty_sheet) moves alone, the image's present base sets alone. A base of 2^32 or more
 * isn't legal; it is never cut down.
 *
 * The owner list says which setting bytes are whose: ranges of PAJURENDA_RANGE_BYTES (offset in the
 * region, length, owner, as pajurenda_put_range writes them), none or up to PAJURENDA_MOST_RANGES, by
 * ascending offset. There are two owners, 1 and 2; the call is made as one of them, and its sheet may
 * set that owner's bytes alone. A byte in no range is nobody's. pajurenda_one_owner makes the list
 * that gives every setting to one owner.
 */
uint32_t pajurenda_release(uint8_t *image, size_t image_length,
			   const uint8_t *sheet, size_t sheet_length, uint64_t base,
			   const uint8_t *owners, size_t owners_length, uint64_t owner,
			   uint8_t *answer, size_t answer_length);

/* Judges a release sheet by itself, for no image: number 0 and what it is for, or refusal 15. */
uint32_t pajurenda_sheet(const uint8_t *sheet, size_t sheet_length,
			 uint8_t *answer, size_t answer_length);

/*
 * Folds a pile of sheets into one, written from the output's first byte on. A pile is sheets one
 * after the other in the order they were applied, each after its length, four little-endian bytes.
 * Refusals of the first sheet at fault, 15 (also for a pile of no bytes, a length that is cut short
 * and one past the pile's end) or 16 (its identity, revision or extended number isn't the first
 * sheet's); then 29, where the folded sheet would have more than 256 entries, more than
 * PAJURENDA_MOST_SHEET bytes, or more than the output. At each offset that sheets set, the last
 * one's byte is set, and what touches is one entry: a release with the folded sheet makes the image
 * that releases with each of the pile to the same base make, wherever each of them is accepted.
 * What the output holds after the sheet is kept; one of PAJURENDA_MOST_SHEET bytes is never too
 * short.
 */
uint32_t pajurenda_fold(const uint8_t *pile, size_t pile_length,
			uint8_t *output, size_t output_length,
			uint8_t *answer, size_t answer_length);

/*
 * Finds one setting by offset in the region and size; the image's own refusals, then 28, 17. Its
 * answer has no index; pajurenda_read names the entry of 12, 22, 13 and 14.
 */
uint32_t pajurenda_setting(const uint8_t *image, size_t length, uint64_t offset, uint64_t size,
			   uint8_t *answer, size_t answer_length);

/*
 * Audits a shipped image against the vendor's, moved to the shipped base; the vendor image's own
 * refusals, then 19, 18, 20. The list has places_length / 4 places of four little-endian bytes,
 * filled in order of position: the position of a differing setting byte, or the position +
 * 16,777,216 of a stray. Bytes after the last entry are kept. For 20, settings + strays is the
 * number of places to ask again with. A vendor image of edition 1 is compared byte for byte and not
 * moved: every difference is a stray, those of the base word too, and the base is the shipped word.
 */
uint32_t pajurenda_audit(const uint8_t *vendor, size_t vendor_length,
			 const uint8_t *shipped, size_t shipped_length,
			 uint8_t *places, size_t places_length,
			 uint8_t *answer, size_t answer_length);

/*
 * Audits a shipped image as pajurenda_audit does, and puts back each stray byte: it becomes that of the
 * vendor image moved to the shipped base, and no other byte changes. Answer and list are those of the
 * audit before. Refusals: the vendor image's own, 28 where it is of edition 1, then 19, 18, 20; on a
 * refusal the shipped image and the list keep what they held.
 */
uint32_t pajurenda_mend(const uint8_t *vendor, size_t vendor_length,
			uint8_t *shipped, size_t shipped_length,
			uint8_t *places, size_t places_length,
			uint8_t *answer, size_t answer_length);

/*
 * One step through a list of hand-off blocks: the block at the cursor, and the next cursor. Any
 * number may be the cursor; a list starts at 0 and is followed by each answer's next, up to the end
 * block. Refusals in this order: 32, 30, 31 (at cursor 0 alone), 33.
 */
uint32_t pajurenda_handoff(const uint8_t *buffer, size_t length, uint64_t cursor,
			   uint8_t *answer, size_t answer_length);

/*
 * The whole list by the same steps, from 0 on: where its end block stands and how many blocks there
 * are; or the refusal of the first block at fault, and where. No byte after the end block counts.
 */
uint32_t pajurenda_handoffs(const uint8_t *buffer, size_t length,
			    uint8_t *answer, size_t answer_length);

/*
 * The map of free memory by a list of hand-off blocks: 30 to 33 as pajurenda_handoffs has them, then
 * 34, then 35. A byte is free where it lies in a resource of type 0 (system memory) and in none of
 * type 5 (reserved); other types don't count, and resources may overlap. The map's free ranges are as
 * long as they can be, ascend, and none touches another. Each is PAJURENDA_FREE_BYTES of the map, its
 * first byte and its last, 64 bits each, so that one may end with the last of 2^64. There are never
 * more than 128: PAJURENDA_MAP_ROOM bytes are always enough, and fewer are answered with
 * PAJURENDA_SHORT before anything is read, whatever the list is. What the map holds after its ranges
 * is kept.
 */
uint32_t pajurenda_map(const uint8_t *buffer, size_t length,
		       uint8_t *map, size_t map_length,
		       uint8_t *answer, size_t answer_length);

/*
 * The lowest base at which an image of so many bytes lies whole in one free range of that map: a
 * multiple of 4,096, base plus size at most 2^32, as pajurenda_release takes it. 30 to 35, then 36,
 * then 37. A free range may go on above 4 GiB, the image may not.
 */
uint32_t pajurenda_lowest_base(const uint8_t *buffer, size_t length, uint64_t size,
			       uint8_t *answer, size_t answer_length);

/*
 * One call of a boot, in the order that the state stands for; 41, then 40, else 0 and the state after
 * it. The state is PAJURENDA_STATION_BYTES of the caller's, a little-endian number: all 0 after a
 * reset, and else as the call left it. Any bytes may be given: in those that are no state every call is
 * refused. The notification has a say with PAJURENDA_CALL_NOTIFY_PHASE alone. Neither number is cut
 * down.
 */
uint32_t pajurenda_station(uint8_t *state, size_t state_length, uint64_t call,
			   uint64_t notification);

/* The state of a station that was reset, whatever it was before: always 0, or PAJURENDA_SHORT. */
uint32_t pajurenda_station_reset(uint8_t *state, size_t state_length);

/*
 * Writes bytes at a base as Intel HEX, for a flash programmer; 1, 18, then 53. A record carries 16 bytes,
 * the last one what is left; one with the upper 16 bits of the address opens the text and stands before
 * the data of every further 64 KiB; digits are capitals, lines end in a line feed alone, and after the
 * end record nothing follows, not a zero byte either. The bytes need not be an image that reads, only as long as
 * one may be. The text's length is judged before the first character is written, and what the buffer
 * holds after the text is kept; a buffer of PAJURENDA_MOST_HEX bytes is never too short.
 */
uint32_t pajurenda_hex_export(const uint8_t *bytes, size_t length, uint64_t base,
			      uint8_t *text, size_t text_length,
			      uint8_t *answer, size_t answer_length);

/*
 * The bytes and the base of a text that pajurenda_hex_export writes, and of no other: 50, then 53. The
 * whole text is judged before the first byte is written, and what the buffer holds after the bytes is
 * kept; a buffer of PAJURENDA_MOST_IMAGE bytes is never too short.
 */
uint32_t pajurenda_hex_import(const uint8_t *text, size_t text_length,
			      uint8_t *bytes, size_t length,
			      uint8_t *answer, size_t answer_length);

/*
 * The SHA-256 digest (FIPS 180-4) of any bytes, into the first PAJURENDA_SHA256_BYTES of the answer:
 * always 0, or PAJURENDA_SHORT where the answer has no room for it. (The standard has no digest for
 * 2^61 bytes or more, which no machine holds: 1, and nothing is written.)
 */
uint32_t pajurenda_sha256(const uint8_t *bytes, size_t length, uint8_t *answer,
			  size_t answer_length);

/* The library's version in one word: PAJURENDA_VERSION_NUMBER where header and library are of one. */
uint32_t pajurenda_version(void);

/* ---- for the caller's ease: nothing below judges an image or a list ---- */

/* A little-endian number of at most eight bytes. */
static inline uint64_t pajurenda_number(const uint8_t *bytes, size_t width)
{
	uint64_t value = 0;
	for (size_t i = width; i > 0; i--)
		value = value << 8 | bytes[i - 1];
	return value;
}

/* A field of an answer: pajurenda_field(answer, PAJURENDA_READ_BASE). */
static inline uint64_t pajurenda_field(const uint8_t *answer, size_t field)
{
	return pajurenda_number(answer + field, 8);
}

/* The same of a field with a sign: pajurenda_signed_field(answer, PAJURENDA_RELEASE_MOVE). */
static inline int64_t pajurenda_signed_field(const uint8_t *answer, size_t field)
{
	const uint64_t value = pajurenda_field(answer, field);
	return value >> 63 == 0 ? (int64_t)value : -(int64_t)~value - 1;
}

/* 1 where a refusal names a patch entry: the answer's index is that entry's, counted from 0. */
static inline int pajurenda_has_index(uint32_t number)
{
	return (number >= PAJURENDA_TYPE && number <= PAJURENDA_OVERLAP) ||
	       number == PAJURENDA_RESERVED;
}

/*
 * The edition of the image that an accepted pajurenda_read answered for, 1 or 2; 0 where it was
 * refused. Of edition 1 nothing but header, identity, revision and base may be made use of.
 */
static inline unsigned pajurenda_edition(const uint8_t *answer)
{
	if (pajurenda_field(answer, PAJURENDA_READ_NUMBER) != PAJURENDA_ACCEPTED)
		return 0;
	return pajurenda_field(answer, PAJURENDA_READ_COMPONENT) == 0 ? 1 : 2;
}

/* The eight bytes of the identity in the answer of pajurenda_read. */
static inline const uint8_t *pajurenda_identity(const uint8_t *answer)
{
	return answer + PAJURENDA_READ_IDENTITY;
}

/*
 * An image's version, major.minor.revision.build, from the revision and the extended number that a
 * reading gives or a sheet has. By the FSP specification 2.5 (FSP_INFO_HEADER, ImageRevision at 12
 * and ExtendedImageRevision at 76) the extended number's low byte is the upper half of the build,
 * its high byte that of the revision; edition 1 has the major number in bits 15 to 8 of the
 * revision, the minor one in bits 7 to 0, and no other:
 * pajurenda_image_build(pajurenda_field(answer, PAJURENDA_READ_REVISION),
 *                       pajurenda_field(answer, PAJURENDA_READ_EXTENDED)).
 */
static inline unsigned pajurenda_image_major(uint64_t revision)
{
	return (unsigned)(revision >> 24 & 0xFF);
}

static inline unsigned pajurenda_image_minor(uint64_t revision)
{
	return (unsigned)(revision >> 16 & 0xFF);
}

static inline unsigned pajurenda_image_revision(uint64_t revision, uint64_t extended)
{
	return (unsigned)((extended >> 8 & 0xFF) << 8 | (revision >> 8 & 0xFF));
}

static inline unsigned pajurenda_image_build(uint64_t revision, uint64_t extended)
{
	return (unsigned)((extended & 0xFF) << 8 | (revision & 0xFF));
}

/* The eight bytes of the identity in the answer of pajurenda_sheet. */
static inline const uint8_t *pajurenda_sheet_identity(const uint8_t *answer)
{
	return answer + PAJURENDA_SHEET_IDENTITY;
}

/*
 * The empty sheet of an image, PAJURENDA_EMPTY_SHEET bytes, by the answer of an accepted
 * pajurenda_read: a release with it only moves.
 */
static inline void pajurenda_empty_sheet(const uint8_t *answer, uint8_t *sheet)
{
	for (size_t i = 0; i < 8; i++)
		sheet[i] = answer[PAJURENDA_READ_IDENTITY + i];
	for (size_t i = 0; i < 4; i++)
		sheet[8 + i] = answer[PAJURENDA_READ_REVISION + i];
	for (size_t i = 0; i < 2; i++) {
		sheet[12 + i] = 0;
		sheet[14 + i] = answer[PAJURENDA_READ_EXTENDED + i];
	}
}

/* A range of an owner list, PAJURENDA_RANGE_BYTES at a place of it. */
static inline void pajurenda_put_range(uint8_t *at, uint32_t offset, uint16_t length, uint16_t owner)
{
	const uint64_t value = offset | (uint64_t)length << 32 | (uint64_t)owner << 48;
	for (size_t i = 0; i < PAJURENDA_RANGE_BYTES; i++)
		at[i] = (uint8_t)(value >> (8 * i));
}

/*
 * The owner list that gives every setting of an image to one owner, by the answer of an accepted
 * pajurenda_read. Its length: PAJURENDA_RANGE_BYTES, or 0 where there is no setting (none in the
 * region, or an image of edition 1) and no byte is written.
 */
static inline size_t pajurenda_one_owner(const uint8_t *answer, uint16_t owner, uint8_t *owners)
{
	const uint64_t size = pajurenda_field(answer, PAJURENDA_READ_SIZE);
	if (size <= 32 || pajurenda_edition(answer) != 2)
		return 0;
	pajurenda_put_range(owners, 32, (uint16_t)(size - 32), owner);
	return PAJURENDA_RANGE_BYTES;
}

/* The i-th place of the audit's list or entry of the contents', counted from 0, as it stands there. */
static inline uint32_t pajurenda_place(const uint8_t *places, size_t i)
{
	return (uint32_t)pajurenda_number(places + PAJURENDA_PLACE_BYTES * i,
					  PAJURENDA_PLACE_BYTES);
}

/* 1 where a place is a stray's, 0 where it is a setting's. */
static inline int pajurenda_is_stray(uint32_t place)
{
	return place >= PAJURENDA_STRAY;
}

/* The position in the image that a place names. */
static inline uint32_t pajurenda_position(uint32_t place)
{
	return pajurenda_is_stray(place) ? place - PAJURENDA_STRAY : place;
}

/*
 * The code of an entry of the list of contents, PAJURENDA_CONTENT_FILE and so on; the i-th entry is
 * pajurenda_place(list, i), as in the audit's list.
 */
static inline unsigned pajurenda_content(uint32_t entry)
{
	return (unsigned)(entry >> 24);
}

/* The place in the image that an entry of the list of contents names. */
static inline uint32_t pajurenda_content_place(uint32_t entry)
{
	return entry & 0xFFFFFF;
}

/* How many bytes a word of the list of contents has, 4 or 8; 0 where the entry is no word. */
static inline unsigned pajurenda_content_width(uint32_t entry)
{
	switch (pajurenda_content(entry)) {
	case PAJURENDA_CONTENT_IMAGE_BASE_4:
	case PAJURENDA_CONTENT_RELOCATION_4:
	case PAJURENDA_CONTENT_BASE_WORD:
	case PAJURENDA_CONTENT_PATCH_WORD: return 4;
	case PAJURENDA_CONTENT_IMAGE_BASE_8:
	case PAJURENDA_CONTENT_RELOCATION_8: return 8;
	default: return 0;
	}
}

/* The next cursor in the answer of pajurenda_handoff. */
static inline uint64_t pajurenda_next(const uint8_t *answer)
{
	return pajurenda_field(answer, PAJURENDA_HANDOFF_NEXT);
}

/* 1 where the answer of pajurenda_handoff is the end block: the list is done. */
static inline int pajurenda_is_end(const uint8_t *answer)
{
	return pajurenda_field(answer, PAJURENDA_HANDOFF_KIND) == PAJURENDA_BLOCK_END;
}

/* The first and the last byte of the i-th free range of a map, counted from 0. */
static inline uint64_t pajurenda_free_first(const uint8_t *map, size_t i)
{
	return pajurenda_number(map + PAJURENDA_FREE_BYTES * i, 8);
}

static inline uint64_t pajurenda_free_last(const uint8_t *map, size_t i)
{
	return pajurenda_number(map + PAJURENDA_FREE_BYTES * i + 8, 8);
}

/* The name of a block's kind; "nothing" where refused. */
static inline const char *pajurenda_kind_name(uint64_t kind)
{
	switch (kind) {
	case PAJURENDA_BLOCK_HANDOFF: return "handoff";
	case PAJURENDA_BLOCK_RESOURCE: return "resource";
	case PAJURENDA_BLOCK_GUID: return "guid";
	case PAJURENDA_BLOCK_UNKNOWN: return "unknown";
	case PAJURENDA_BLOCK_END: return "end";
	default: return "nothing";
	}
}

/* The name of a call of a boot; "unknown" where there is none. */
static inline const char *pajurenda_call_name(uint64_t call)
{
	switch (call) {
	case PAJURENDA_CALL_TEMP_RAM_INIT: return "TempRamInit";
	case PAJURENDA_CALL_MEMORY_INIT: return "MemoryInit";
	case PAJURENDA_CALL_TEMP_RAM_EXIT: return "TempRamExit";
	case PAJURENDA_CALL_SILICON_INIT: return "SiliconInit";
	case PAJURENDA_CALL_NOTIFY_PHASE: return "NotifyPhase";
	default: return "unknown";
	}
}

/* The name of a notification; "unknown" where there is none. */
static inline const char *pajurenda_notification_name(uint64_t notification)
{
	switch (notification) {
	case PAJURENDA_NOTIFY_AFTER_PCI_ENUMERATION: return "AfterPciEnumeration";
	case PAJURENDA_NOTIFY_READY_TO_BOOT: return "ReadyToBoot";
	case PAJURENDA_NOTIFY_END_OF_FIRMWARE: return "EndOfFirmware";
	default: return "unknown";
	}
}

/* The name of an answer's number; "unknown" where it is no answer. */
static inline const char *pajurenda_name(uint32_t number)
{
	switch (number) {
	case PAJURENDA_ACCEPTED: return "ACCEPTED";
	case PAJURENDA_LENGTH: return "LENGTH";
	case PAJURENDA_VOLUME: return "VOLUME";
	case PAJURENDA_FILE: return "FILE";
	case PAJURENDA_SECTION: return "SECTION";
	case PAJURENDA_HEADER: return "HEADER";
	case PAJURENDA_SIZE: return "SIZE";
	case PAJURENDA_COMPONENT: return "COMPONENT";
	case PAJURENDA_BASE: return "BASE";
	case PAJURENDA_TABLE: return "TABLE";
	case PAJURENDA_CONFIG: return "CONFIG";
	case PAJURENDA_UPD: return "UPD";
	case PAJURENDA_TYPE: return "TYPE";
	case PAJURENDA_PLACE: return "PLACE";
	case PAJURENDA_OVERLAP: return "OVERLAP";
	case PAJURENDA_SHEET: return "SHEET";
	case PAJURENDA_IDENTITY: return "IDENTITY";
	case PAJURENDA_FIELD: return "FIELD";
	case PAJURENDA_NEWBASE: return "NEWBASE";
	case PAJURENDA_PAIR: return "PAIR";
	case PAJURENDA_ROOM: return "ROOM";
	case PAJURENDA_RESERVED: return "RESERVED";
	case PAJURENDA_OWNERS: return "OWNERS";
	case PAJURENDA_OWNER: return "OWNER";
	case PAJURENDA_MODULE: return "MODULE";
	case PAJURENDA_WORD: return "WORD";
	case PAJURENDA_RELOCATION: return "RELOCATION";
	case PAJURENDA_READ_ONLY: return "READ-ONLY";
	case PAJURENDA_FOLDED: return "FOLDED";
	case PAJURENDA_BLOCK: return "BLOCK";
	case PAJURENDA_FIRST: return "FIRST";
	case PAJURENDA_NOTHING: return "NOTHING";
	case PAJURENDA_KIND: return "KIND";
	case PAJURENDA_ABOVE: return "ABOVE";
	case PAJURENDA_MANY: return "MANY";
	case PAJURENDA_IMAGE: return "IMAGE";
	case PAJURENDA_NOWHERE: return "NOWHERE";
	case PAJURENDA_ORDER: return "ORDER";
	case PAJURENDA_UNKNOWN: return "UNKNOWN";
	case PAJURENDA_TEXT: return "TEXT";
	case PAJURENDA_SPACE: return "SPACE";
	case PAJURENDA_SHORT: return "SHORT";
	default: return "unknown";
	}
}

/* An image's own rules, for pajurenda_sentence; h, V, s, L, E and z are document 01's letters. */
static inline const char *pajurenda_image_sentence(uint32_t number)
{
	switch (number) {
	case PAJURENDA_LENGTH: return "an image has 72 to 16777216 bytes";
	case PAJURENDA_VOLUME:
		return "the volume's header must have the mark _FVH, an even length h from 72 to V, "
		       "a sum of 0 and any extended header within V, V within the file";
	case PAJURENDA_FILE:
		return "the volume's first file must be 912740BE-2284-4734-B971-84B027353F0C, not "
		       "large, its header's sum 0, its size s 28 or more, and lie within V";
	case PAJURENDA_SECTION:
		return "the header file's section must be of type 0x19 and of size 76 (64 where the "
		       "header's revision is 1) to s-24";
	case PAJURENDA_HEADER:
		return "the section must start with FSPH, of revision 3 or more and a length L "
		       "from 72 (from revision 6 on, 80) to 256, or of revision 1 and a length of 60 or "
		       "64, with 4+L within the section's size";
	case PAJURENDA_SIZE: return "the header must give the image's length";
	case PAJURENDA_COMPONENT: return "the component must be 1 (T), 2 (M), 3 (S) or 4 (I)";
	case PAJURENDA_BASE:
		return "the image's own base must be a multiple of 4096, "
		       "base plus length at most 2^32";
	case PAJURENDA_TABLE:
		return "a patch table FSPP, of revision 1 and at most 1024 entries, must follow "
		       "the header or its FSPE of 24 bytes or more, within the section";
	case PAJURENDA_CONFIG:
		return "the region must have 32 to 65536 bytes, from E on and within the image";
	case PAJURENDA_UPD: return "the region's mark must be _ and the component's letter";
	case PAJURENDA_TYPE: return "a patch entry's type must be 0 or 15";
	case PAJURENDA_RESERVED: return "a patch entry's bits 30 to 28 must all be as its bit 31 is";
	case PAJURENDA_PLACE: return "a patch word must lie inside the image";
	default: return "a patch word must be clear of tables, region and earlier words";
	}
}

/* The rules 25 to 27, for pajurenda_sentence: what is asked of the files after the tables. */
static inline const char *pajurenda_module_sentence(uint32_t number)
{
	switch (number) {
	case PAJURENDA_MODULE:
		return "files, sections and PE32 and TE modules must be whole: a file's header sum 0, "
		       "a module's marks, headers, data and relocation blocks in it; and no header, "
		       "block or free end may be in the region";
	case PAJURENDA_WORD:
		return "a word that moves must be clear of every other, of tables, headers, relocation "
		       "blocks, region and free end, and a module's word inside its module";
	default: return "a relocation's type must be 0, 3 or 10";
	}
}

/* The rules 30 to 33, for pajurenda_sentence. */
static inline const char *pajurenda_handoff_sentence(uint32_t number)
{
	switch (number) {
	case PAJURENDA_BLOCK:
		return "a block must have a header of 8 bytes and a length of 8 or more, "
		       "in steps of 8, that ends within the buffer";
	case PAJURENDA_FIRST: return "the list must start with a block of type 1 and length 56";
	case PAJURENDA_NOTHING: return "a list must go on up to its end block, of type 0xFFFF";
	default:
		return "a resource (type 3) must have 48 bytes or more, a GUID block (type 4) 24 or "
		       "more, the end block exactly 8";
	}
}

/* The rules 34 to 37, for pajurenda_sentence. */
static inline const char *pajurenda_memory_sentence(uint32_t number)
{
	switch (number) {
	case PAJURENDA_ABOVE: return "a resource of type 0 or 5 must end at 2^64 or below";
	case PAJURENDA_MANY: return "a list must have at most 128 resources of types 0 and 5";
	case PAJURENDA_IMAGE: return "an image to be placed must have 1 to 16777216 bytes";
	default:
		return "the image must lie whole in one free range, at a base that is a multiple of 4096, "
		       "base plus size at most 2^32";
	}
}

/* The rule behind an answer's number in a sentence; "unknown" where it is no answer. */
static inline const char *pajurenda_sentence(uint32_t number)
{
	if ((number >= PAJURENDA_LENGTH && number <= PAJURENDA_OVERLAP) ||
	    number == PAJURENDA_RESERVED)
		return pajurenda_image_sentence(number);
	if (number >= PAJURENDA_MODULE && number <= PAJURENDA_RELOCATION)
		return pajurenda_module_sentence(number);
	if (number >= PAJURENDA_BLOCK && number <= PAJURENDA_KIND)
		return pajurenda_handoff_sentence(number);
	if (number >= PAJURENDA_ABOVE && number <= PAJURENDA_NOWHERE)
		return pajurenda_memory_sentence(number);
	switch (number) {
	case PAJURENDA_ACCEPTED: return "every rule is kept";
	case PAJURENDA_SHEET:
		return "a sheet must have 16 to 65535 bytes: contents (at most 256 entries in order, "
		       "none empty), then bodies without a gap or a rest";
	case PAJURENDA_IDENTITY:
		return "the sheet must be for the image's identity, revision and extended number";
	case PAJURENDA_FIELD:
		return "a setting must have a byte or more, at offsets 32 to z-1 of the region";
	case PAJURENDA_NEWBASE:
		return "the base to move to must be a multiple of 4096, "
		       "base plus length at most 2^32";
	case PAJURENDA_OWNERS:
		return "an owner list must have at most 64 ranges of 8 bytes by ascending offset, none "
		       "empty, none into the next, all in offsets 32 to z-1; each owner, and who asks, "
		       "must be 1 or 2";
	case PAJURENDA_OWNER:
		return "every byte that the sheet sets must be in a range of the owner who asks";
	case PAJURENDA_READ_ONLY:
		return "an edition 1 image (header revision 1) can only be read and audited, byte for "
		       "byte: its settings and the words of a move can't be told apart";
	case PAJURENDA_FOLDED:
		return "a folded sheet must have at most 256 entries, once those that touch are joined, and "
		       "65535 bytes, and room in the output";
	case PAJURENDA_PAIR: return "the two images must be equally long";
	case PAJURENDA_ROOM: return "the list must have a place for each difference, or for each entry";
	case PAJURENDA_ORDER:
		return "after a reset come TempRamInit or not, MemoryInit, TempRamExit where TempRamInit "
		       "came, SiliconInit, notifications 0x20, 0x40, 0xF0; each once, in this order";
	case PAJURENDA_UNKNOWN:
		return "a call must be TempRamInit, MemoryInit, TempRamExit, SiliconInit or NotifyPhase (1 "
		       "to 5), a notification 0x20, 0x40 or 0xF0";
	case PAJURENDA_TEXT:
		return "the text must be, character for character, what an export writes of 72 to 16777216 "
		       "bytes at a legal base";
	case PAJURENDA_SPACE: return "the output must have room for all that is written";
	case PAJURENDA_SHORT:
		return "the buffer of an answer, of a station's state or of a map must have room for it";
	default: return "unknown";
	}
}

#ifdef __cplusplus
}
#endif

#endif
