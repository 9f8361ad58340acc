/* JSON on standard output, a member a line; docs/json.md has the documents. */
#ifndef COMMAND_JSON_H
#define COMMAND_JSON_H

#include <stdbool.h>

#include "command.h"

void want_json(const char *command, bool json);
bool is_json(void);
void begin_json(const char *command);
void begin_document(void);
void end_documents(void);
void end_json(void);
void json_text(const char *name, const char *text);
void json_number(const char *name, uint64_t value);
void json_signed(const char *name, int64_t value);
void json_hex(const char *name, unsigned digits, uint64_t value);
void put_refusal(uint32_t number);
void json_refusal(uint32_t number);
void json_answer(uint32_t number, uint64_t index);
void json_bound_parts(const uint8_t *identity, uint64_t revision, uint64_t extended);
void json_parts(const uint8_t *identity, uint64_t revision, uint64_t extended);
void json_bytes(const uint8_t *bytes, uint64_t count);

#endif
