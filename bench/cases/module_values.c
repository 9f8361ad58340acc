/* The words of an accepted image, and values that a move may trip over. */
#include "module_cases.h"
#include "../second/second.h"

uint64_t shown, shown_place[MOST_SHOWN], shown_width[MOST_SHOWN];

/* "The words of a move": base word, patch words, then the modules'. */
void list_words(void)
{
	struct second_word word[MOST_SHOWN];
	shown = second_words(image, now.length, word, MOST_SHOWN);
	if (shown == 0 || shown > MOST_SHOWN)
		fail("an image without words, or with too many");
	for (uint64_t i = 0; i < shown; i++) {
		shown_place[i] = word[i].place;
		shown_width[i] = word[i].width;
	}
}

/* Values that wrap, come to 0 or to the highest, or carry and borrow through the middle, for a move from one base to another. */
uint64_t odd_value(uint64_t width, uint64_t i, uint64_t from, uint64_t to)
{
	const uint64_t by = to - from, back = from - to, high = UINT64_C(0x7654321000000000);
	const uint64_t value[] = {
		0, UINT64_MAX, back, back - 1, back + 1, TWO32 - 1, TWO32, TWO32 - by, TWO32 - by - 1, high, high + 0xFFFFFFFF,
		high - by, high + TWO32 - by, TWO63, TWO63 - 1, TWO63 - by, from, to, high + from, UINT64_C(0x00FF00FF00FF00FF), 0xFFF,
	};
	const uint64_t picked = value[i % COUNT(value)];
	return width == 8 ? picked : picked % TWO32;
}
