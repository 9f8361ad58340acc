/* Numbers as people write them. */
#ifndef COMMAND_NUMBERS_H
#define COMMAND_NUMBERS_H

#include <stdbool.h>
#include <stdint.h>

/* The base that a release is to: a number, or the one that the image is at. */
struct base {
	bool keep;
	uint64_t value;
};

/* What a text is as a number. */
enum number { NUMBER, TOO_LARGE, NO_NUMBER };

enum number read_number(const char *text, uint64_t *value);
void say_how(const char *text, const char *other);
bool all_hex(const char *text);
uint8_t byte_of(const char *digits);
enum number read_base(const char *text, uint64_t *value);
void say_base(const char *text, const char *other);
bool take_base(const char *command, const char *text, struct base *base);
bool take_number(const char *command, const char *name, const char *text, uint64_t *value);

#endif
