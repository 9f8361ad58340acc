/* Refusals in words: the number for scripts, the rule and the values that decided for people. */
#ifndef COMMAND_REFUSALS_H
#define COMMAND_REFUSALS_H

#include <stdbool.h>
#include <stdio.h>

#include "command.h"

/* A file as the user named it, with its bytes. */
struct named {
	const char *name;
	struct bytes bytes;
};

/* A setting that was asked for; the index is that of the sheet's entry. */
struct asked {
	uint64_t index;
	uint64_t offset;
	uint64_t length;
};

struct owners;

void keep_refusals(bool from_output);
void say_length(const struct bytes *file);
void say_bytes(const struct bytes *file, uint64_t at, size_t count);
FILE *saying(void);
const char *refusal_values(void);
uint32_t refusal_number(void);
uint64_t refusal_index(void);
void note_index(uint64_t index);
void begin_line(const char *name);
void print_refused(uint32_t number);
void begin_told_refusal(uint32_t number, const char *name);
void begin_refusal(uint32_t number, const char *name);
void say_rule(uint32_t number);
enum status end_refusal(void);

enum status refuse_image(uint32_t number, uint64_t index, const struct named *image);
enum status refuse_sheet(const struct named *sheet);
enum status refuse_identity(const struct named *sheet, const struct named *image,
			    const uint8_t *reading);
enum status refuse_entry(const struct named *sheet, const struct asked *asked, uint64_t size);
enum status refuse_range(const struct owners *owners, size_t index, uint64_t size);
enum status refuse_rest(const struct owners *owners);
enum status refuse_caller(const struct owners *owners, uint64_t owner);
enum status refuse_byte(const struct named *sheet, const struct asked *asked, uint64_t offset,
			const struct owners *owners, uint64_t owner);
enum status refuse_setting(const struct named *image, const struct asked *asked, uint64_t size);
enum status refuse_new_base(const struct named *image, uint64_t base);
enum status refuse_text_base(const struct named *image, uint64_t base);
void begin_shipped_base(const struct named *shipped, uint64_t position);
enum status refuse_handoff(uint32_t number, uint64_t place, const struct named *dump);
enum status refuse_pair(const struct named *vendor, const struct named *shipped);

#endif
