/* The second simulator: the calls of include/schoonleech.h done again, in plain C, from chapter 5 of the source and the scope alone. It
   shares nothing with the proved engine but that header, and is written to be read beside the page. */
#ifndef SIMULATOR_H
#define SIMULATOR_H

#include "../../include/schoonleech.h"

avm_answer sim_run(const uint64_t *program, size_t words, uint32_t *memory, size_t m, uint32_t *registers, size_t count,
                   uint32_t state[AVM_STATE], const uint8_t *requests, size_t bytes);
avm_answer sim_phase(const uint64_t *program, size_t words, uint32_t *memory, size_t m, uint32_t *registers, size_t count,
                     uint32_t state[AVM_STATE], uint32_t latches[AVM_LATCHES], uint64_t *mir, uint32_t *phase, uint8_t request);
avm_answer sim_steps(uint32_t *memory, size_t m, uint32_t *registers, size_t count, uint32_t state[AVM_STATE], const uint8_t *requests,
                     size_t bytes);
avm_answer sim_board_microcycle(avm_board *board, const uint64_t *program, size_t words, uint32_t *memory, size_t m, uint8_t request);
avm_answer sim_board_instruction(avm_board *board, uint32_t *memory, size_t m, uint8_t request);
avm_answer sim_check(const uint64_t *program, size_t words);
avm_answer sim_read(uint32_t *memory, size_t m, const uint8_t *text, size_t bytes);
avm_answer sim_write(const uint32_t *memory, size_t m, uint8_t *room, size_t bytes);

#endif
