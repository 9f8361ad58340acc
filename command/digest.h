/* The SHA-256 of bytes, by the library. */
#ifndef COMMAND_DIGEST_H
#define COMMAND_DIGEST_H

#include <stdbool.h>

#include "command.h"

#define DIGEST_DIGITS 64

/* How the digests are told of where it is said what is proved. */
#define PROVED_DIGEST ", pajurenda_sha256 (every digest)"
#define UNPROVED_DIGEST ""

bool find_digest(const struct bytes *bytes, char *digits);

#endif
