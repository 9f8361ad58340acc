/*
 * The SHA-256 of bytes in memory, by the library: proved against the standard's definition, and no program that the PATH
 * happens to find has a say in it. This is the one place that a digest comes from.
 */
#include "digest.h"

#include "pajurenda.h"

/* The digest in 64 digits, as a string; false where it can't be had, which no bytes in memory are the reason for. */
bool find_digest(const struct bytes *bytes, char *digits)
{
	static const char hex[] = "0123456789abcdef";
	uint8_t digest[PAJURENDA_SHA256_BYTES];
	if (pajurenda_sha256(bytes->at, bytes->length, digest, sizeof digest) != PAJURENDA_ACCEPTED)
		return false;
	for (size_t i = 0; i < sizeof digest; i++) {
		digits[2 * i] = hex[digest[i] >> 4];
		digits[2 * i + 1] = hex[digest[i] & 15];
	}
	digits[DIGEST_DIGITS] = 0;
	return true;
}
