/* What a call is lent: the numbers of the scope that refuse it before anything is done, and what a request byte says. */
#ifndef SIMULATOR_LENT_H
#define SIMULATOR_LENT_H

#include <stdbool.h>

#include "../../include/schoonleech.h"

/* An answer without counts. */
avm_answer numbered(uint64_t number, uint64_t at);

bool is_power_of_two_in_range(size_t m);

/* Numbers 1 to 3, the lowest first, for the calls that have a machine. */
avm_answer test_machine(size_t m, const uint32_t *registers, size_t count);

/* Numbers 4 and 5, for the calls that have a microprogram. */
avm_answer test_program(const uint64_t *program, size_t words);

/* Number 7, for request bytes up to the highest that the call takes. */
avm_answer test_requests(const uint8_t *requests, size_t bytes, uint8_t highest);

/* Bit 0 is the interrupt request. Bit 1 is reset, which no definition of the source reads. */
bool interrupt_line(uint8_t request);

#endif
