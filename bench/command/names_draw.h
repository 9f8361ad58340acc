/* Names drawn from a seed, written in each form; and files changed here and there. */
#ifndef NAMES_DRAW_H
#define NAMES_DRAW_H

#include "names.h"

void start_draw(uint64_t seed);
uint8_t *draw_changed(const uint8_t *bytes, size_t length, size_t *drawn);
bool reads_back(const struct names *names, const struct names_for *image);
int try_random(uint64_t seed, uint64_t turns);

#endif
