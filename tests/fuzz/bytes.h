/* What the fuzzer gives, taken byte by byte. Where none is left, zeros come. */
#ifndef FUZZ_BYTES_H
#define FUZZ_BYTES_H

#include <stdbool.h>
#include <stddef.h>
#include <stdint.h>

struct bytes {
    const uint8_t *next;
    size_t left;
};

uint8_t take_byte(struct bytes *bytes);

/* A number of that many bytes, the most significant first. */
uint64_t take_number(struct bytes *bytes, unsigned length);

/* A word: one byte makes it small or puts it near 0 or 2^31, five make it any. */
uint32_t take_word(struct bytes *bytes);

/* Whether the next byte is one of that many of 256. */
bool take_chance(struct bytes *bytes, unsigned of_256);

#endif
