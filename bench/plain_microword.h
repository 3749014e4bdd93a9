/* What the plain C of this folder knows of microwords together. */
#ifndef BENCH_PLAIN_MICROWORD_H
#define BENCH_PLAIN_MICROWORD_H

#include <stdbool.h>
#include <stdint.h>

static inline bool legal(uint64_t word)
{
    return word >> 40 == 0 && (word >> 33 & 15) <= 10 && (word >> 27 & 7) <= 5 && (word >> 25 & 3) <= 2 && (word >> 22 & 7) <= 6 &&
           (word >> 6 & 7) <= 4;
}

#endif
