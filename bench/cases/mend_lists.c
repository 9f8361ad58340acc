/* Mend cases: lists of no place, one short, exactly right and longer, in places and in bytes; files in which all is stray. */
#include "audit_cases.h"

/* Buffer 2 filled, so that a list of bytes that stays as it was is seen to. */
static void fill_list(void)
{
	for (uint64_t i = 0; i < OWNERS_SPACE; i++)
		owners[i] = (uint8_t)(7 * i + 3);
}

/* Refusal 20: the shipped file with a list too short by one, of each kind, and then long enough. */
static void short_lists(void)
{
	const uint64_t right = turned();
	if (right > 0) {
		put_back(right - 1, 20);
		put_back(0, 20);
		fill_list();
		put_back_bytes(4 * right - 1, 20);
	}
}

/* Files with settings alone, strays alone, both and neither; what is put back is turned again before the next list. */
void mend_lists(unsigned k)
{
	static const uint64_t more[] = { 0, 1, 5 };
	small(k);
	for (uint64_t i = 0; i < COUNT(more); i++) {
		ship(random_base());
		put_back(more[i], 0);
		turn_byte(now.c + 35, 0x7E);
		short_lists();
		put_back(turned() + more[i], 0);
		turn_byte(now.length - 1, 0x55);
		turn_byte(0, 0xAA);
		short_lists();
		put_back(turned() + more[i], 0);
		ship(random_base());
		turn_byte(now.c + 31, 0x20);
		turn_byte(now.c + 32, 0x20);
		turn_byte(now.c + now.z, 0x04);
		short_lists();
		put_back_bytes(4 * turned() + more[i] % 4, 0);
	}
}

/* Every byte is another but the base word's, and but for the settings where these are kept: each is put back. */
void mend_all(unsigned k, bool set)
{
	small(k);
	ship(random_base());
	for (uint64_t at = 0; at < now.length; at++) {
		const bool base = at >= spot.H + 28 && at < spot.H + 32, setting = at >= now.c + 32 && at < now.c + now.z;
		if (!base && (set || !setting))
			turn_byte(at, at % 255 + 1);
	}
	if (turned() + 4 + (set ? 0 : now.z - 32) != now.length)
		fail("a byte was left");
	put_back(turned() - 1, 20);
	put_back_exact();
}
