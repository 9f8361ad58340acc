/* What a check is known by afterwards: the line that was typed, by whom, where and when; and files by their full paths. */
#ifndef COMMAND_ABOUT_H
#define COMMAND_ABOUT_H

#include <stdio.h>

#include "command.h"

void keep_line(int count, char **word);
void put_line(FILE *to);
void put_user(FILE *to);
void put_host(FILE *to);
void put_time(FILE *to);
char *full_path(const char *name);

#endif
