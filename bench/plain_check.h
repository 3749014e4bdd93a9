/* avm_check in plain C: the same answers, written by hand to be fast, with nothing proved. */
#ifndef BENCH_PLAIN_CHECK_H
#define BENCH_PLAIN_CHECK_H

#include "../include/schoonleech.h"

avm_answer plain_check(const uint64_t *program, size_t words);

#endif
