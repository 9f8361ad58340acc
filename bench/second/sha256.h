/* SHA-256 a second time: FIPS 180-4 in plain C, written apart from the library. */
#ifndef BENCH_SECOND_SHA256_H
#define BENCH_SECOND_SHA256_H

#include <stddef.h>
#include <stdint.h>

/* The digest of a message of whole bytes. */
void second_sha256(const uint8_t *message, size_t length, uint8_t digest[32]);

#endif
