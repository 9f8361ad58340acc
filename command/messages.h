/* Errors on standard error, and names shown so that they can't be taken for anything else. */
#ifndef COMMAND_MESSAGES_H
#define COMMAND_MESSAGES_H

#include <stdio.h>

#include "command.h"

/* A reason of our own beside the system's: OUT is a device or the like. */
#define NOT_REGULAR (-1)

/* Another: standard input is given as two files. */
#define TAKEN_BEFORE (-2)

size_t put_signs(FILE *to, const char *text, size_t most);
void put_name(FILE *to, const char *name);
void put_start(FILE *to, const char *word);
void say_name(const char *name);
enum status fail_at(const char *name, int reason);
enum status fail_answer(void);
enum status fail_no_memory(const char *name);
enum status fail_gone(const char *command, const char *instead);
enum status fail_lost(const char *command, const char *input);
enum status fail_usage(const char *command, const char *before, const char *word,
		       const char *after);

#endif
