/* avm_run in plain C: the same answers and the same lent places after it, written by hand to be fast, with nothing proved. */
#ifndef BENCH_PLAIN_RUN_H
#define BENCH_PLAIN_RUN_H

#include "../include/schoonleech.h"

avm_answer plain_run(const uint64_t *program, size_t words, uint32_t *memory, size_t m, uint32_t *registers, size_t count,
                     uint32_t state[AVM_STATE], const uint8_t *requests, size_t bytes);

#endif
