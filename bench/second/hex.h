/* The second reader of Intel HEX texts: request #112, written apart from the library. */
#ifndef BENCH_SECOND_HEX_H
#define BENCH_SECOND_HEX_H

#include <stdint.h>

/* Number 0 and how many characters were written; or 1, 18, 53, and length 0. */
struct second_exported {
	uint64_t number, length;
};

/* Number 0, the base and how many bytes were written; or 50, 53, and zeros. */
struct second_imported {
	uint64_t number, base, length;
};

/* Bytes as a text, no zero byte after it. A refusal writes nothing; what is after the text stays. */
struct second_exported second_export(const uint8_t *bytes, uint64_t length, uint64_t base,
				     uint8_t *text, uint64_t room);

/* A text as bytes, likewise. */
struct second_imported second_import(const uint8_t *text, uint64_t text_length,
				     uint8_t *bytes, uint64_t room);

#endif
