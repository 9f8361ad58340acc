/* The forms that a check is told in: by lines, or as a document. */
#ifndef COMMAND_FORMS_H
#define COMMAND_FORMS_H

#include "checked.h"
#include "ranges.h"

void show_agreed(const struct check *check);
void show_found(const struct check *check);
void show_verdict(const struct check *check);
void show_range(const struct ranges *ranges, const struct range *range, bool bytes);
enum status show_audit(const struct check *check, unsigned options);
enum status show_verify(const struct check *check);
enum status write_check(const struct check *check);

#endif
