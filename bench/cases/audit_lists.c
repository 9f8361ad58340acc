/* Audit cases: lists of no place, one short, exactly right and longer, up to 1,500 differences. */
#include "audit_cases.h"

/* Refusal 20: one shipped file with lists of many lengths. */
static void audit_list(void)
{
	const uint64_t right = turned();
	audit(0, right == 0 ? 0 : 20);
	if (right > 1) {
		audit(right - 1, 20);
		audit(1, 20);
	}
	audit(right, 0);
	audit(right + 1, 0);
	audit(right + 5, 0);
}

/* Refusal 20: settings alone, strays alone, both, and none. */
void audit_lists(unsigned k)
{
	small(k);
	ship(random_base());
	audit_list();
	turn_byte(now.c + 35, 0x7E);
	audit_list();
	turn_byte(now.c + now.z - 1, 0x01);
	turn_byte(now.c + 32, 0x80);
	audit_list();
	turn_byte(now.length - 1, 0x55);
	turn_byte(5, 0xAA);
	audit_list();
	ship(random_base());
	turn_byte(now.c + 31, 0x20);
	turn_byte(now.c + now.z, 0x04);
	audit_list();
}

/* A plan of some 1,700 bytes with a region of 800. */
static void many_start(void)
{
	small(3);
	now.z = 800;
	now.n = 16;
	now.fill = 65536;
	fit(540);
}

/* Refusal 20: 1,500 differences, and all settings alone. */
void audit_many(void)
{
	many_start();
	ship(0x00200000);
	for (uint64_t at = now.c + 32; at < now.c + now.z; at++)
		turn_byte(at, at % 255 + 1);
	audit(turned(), 0);
	for (uint64_t at = 0; at < now.length && turned() < 1500; at++)
		if ((at < spot.H + 28 || at >= spot.H + 32) && (at < now.c + 32 || at >= now.c + now.z))
			turn_byte(at, at % 127 + 1);
	if (turned() != 1500)
		fail("too few bytes for 1,500 differences");
	audit(256, 20);
	audit(0, 20);
	audit(1499, 20);
	audit(1500, 0);
}
