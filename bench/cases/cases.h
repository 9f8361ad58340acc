/* What the maker's files share: the plan of an image, the three buffers, and the calls. */
#ifndef BENCH_CASES_H
#define BENCH_CASES_H

#include <stdbool.h>
#include <stddef.h>
#include <stdint.h>
#include <stdio.h>

#include "../make/cover.h"
#include "../make/drawn.h"
#include "../make/files.h"
#include "../make/module.h"

#define SPACE UINT64_C(131072)
#define OWNERS_SPACE UINT64_C(4096)
#define MOST 1025
#define ANY UINT64_C(99)
#define TWO24 UINT64_C(0x1000000)
#define TWO32 UINT64_C(0x100000000)
#define TWO63 UINT64_C(0x8000000000000000)
#define COUNT(list) (sizeof(list) / sizeof((list)[0]))

/* What an image is built from, in the letters of document 01. #107: module is 0, or 1 more than its kind; section: the region's file has
   a section; filled: the last file goes on to V; free: the bytes that fit leaves free at V's end. */
struct plan {
	uint64_t length, V, h, x, e;
	uint64_t L, guard, more_section, more_file;
	uint64_t header_revision, component, low12, identity, revision, extended, base;
	uint64_t n, table_length, table_reserved;
	uint64_t gap, c, z, room, fill;
	uint64_t module, free;
	bool before, section, filled;
	uint64_t entry[MOST];
};

/* Where the parts of the planned image stand; g is the place of FSPE, or p without one; m is the module's first byte, or NOWHERE. */
struct spots {
	uint64_t f, s, S, H, g, p, E, m;
};

/* build.c: buffer 0 (the image or vendor image), buffer 1 (the sheet or shipped file), the plan. */
extern uint8_t image[SPACE];
extern uint8_t sheet[SPACE];
extern struct plan now;
extern struct spots spot;
extern struct cover cover;
extern struct module inside;
extern const char letter[5];
extern uint64_t cases;

void fail(const char *what);
uint64_t round_up(uint64_t value, uint64_t unit);
void put(uint64_t at, uint64_t width, uint64_t value);
uint64_t get(uint64_t at, uint64_t width);
void text(uint64_t at, const char *what);
void put_sheet(uint64_t at, uint64_t width, uint64_t value);
uint64_t get_sheet(uint64_t at, uint64_t width);

uint64_t word(uint64_t place, bool back, uint64_t type);
uint64_t reserved(uint64_t entry, uint64_t bits);
uint64_t place_of(uint64_t k);
uint64_t highest_base(void);
uint64_t extended_number(void);
void empty_sheet(uint8_t *bytes);
void draw_revision(void);
uint64_t random_base(void);
void lay_out(void);
void lay_files(void);
void settle(void);
void fit(uint64_t tail);
void mend_volume(void);
void mend(void);
void put_marks(uint64_t c);
void put_background(void);
void put_parts(void);
void build(void);
void start_small(void);
void small(unsigned k);
void arrange(size_t i);
void random_small(void);
void break_rule(unsigned number);
uint64_t broken_index(unsigned number);
uint64_t build_broken(unsigned number);

/* The image's refusals in the order of judging, 22 after 12, those of #107 last. */
#define RULES 18
extern const unsigned rule[RULES];

#define SMALLS 8
#define ARRANGEMENTS 11

/* owner_list.c: buffer 2 (the owner list), one of its ranges, and the list that gives every setting to owner 1. */
extern uint8_t owners[OWNERS_SPACE];
void put_range(uint64_t i, uint64_t offset, uint64_t length, uint64_t owner);
uint64_t own_all(void);

/* stream.c: the records, each case as its difference from what was sent before; 2, 3 and 6 were calls before #105 and #106. */
enum call { CALL_NONE = 0, CALL_READ = 1, CALL_SETTING = 4, CALL_AUDIT = 5, CALL_RELEASE = 7, CALL_MEND = 8, CALL_MEND_BYTES = 9, CALLS };

#define EMPTY_SHEET 16

/* The bytes lent of each buffer, and two numbers. */
struct order {
	enum call call;
	uint64_t len, other, list, a, b;
};

void open_stream(FILE *to);
void begin_part(uint64_t first_number, bool all_zero);
void send_case(const struct order *order);
void change_buffer(unsigned which, const uint8_t *bytes, uint64_t len);

/* calls.c: one case of each call, with the number and index it is aimed at. */
#define NUMBERS 29

extern FILE *answers;
extern uint64_t given[CALLS][NUMBERS];
extern uint64_t explained;

/* #106: what a release gets: the bytes lent of image, sheet and list, the base and who asks. */
struct release {
	uint64_t len, other, list, base, caller;
};

void show(uint64_t len, uint64_t number, uint64_t index);
void show_owned(const struct release *release, uint64_t number, uint64_t index);
void show_release(uint64_t len, uint64_t other, uint64_t base, uint64_t number, uint64_t index);
void show_move(uint64_t len, uint64_t base, uint64_t number, uint64_t index);
void show_apply(uint64_t len, uint64_t other, uint64_t number, uint64_t index);
void show_setting(uint64_t len, uint64_t offset, uint64_t size, uint64_t number);
void show_audit(uint64_t len, uint64_t other, uint64_t places, uint64_t number, uint64_t index,
		uint64_t settings, uint64_t strays);

/* #110: what a mending gets: the bytes lent of both files, and the list's length, in places or in bytes; what it is aimed at. */
struct mending {
	uint64_t len, other, list;
	uint64_t number, index, settings, strays;
};

void show_mend(const struct mending *mending);
void show_mend_bytes(const struct mending *mending);

/* The parts, and the four of the release part. */
void read_part(void);
void release_part(void);
void release_moves(void);
void release_sheets(void);
void release_both(void);
void release_owners(void);
void release_modules(void);
void audit_modules(void);
void setting_part(void);
void audit_part(void);
void mend_part(void);

#endif
