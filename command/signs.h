/* Text from outside taken sign by sign, and written so that it can't be anything but text. */
#ifndef COMMAND_SIGNS_H
#define COMMAND_SIGNS_H

#include <stdbool.h>
#include <stddef.h>
#include <stdint.h>
#include <stdio.h>

/* What bytes that are no sign become. */
#define NO_SIGN ((uint32_t)0xFFFD)

size_t take_sign(const char *text, uint32_t *sign);
bool is_hidden(uint32_t sign);
void put_title_text(FILE *to, const char *text);
void put_style_text(FILE *to, const char *text);
void put_page_text(FILE *to, const char *text);
void put_json_text(FILE *to, const char *text);

#endif
