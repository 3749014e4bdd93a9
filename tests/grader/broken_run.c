/* A library that breaks its promise: avm_run answers 8 at fetch where PC is 1, though avm_check accepted the microprogram. It is linked
   with --wrap=avm_run. */
#include "schoonleech.h"

avm_answer __real_avm_run(const uint64_t *program, size_t words, uint32_t *memory, size_t m, uint32_t *registers, size_t count,
                          uint32_t state[AVM_STATE], const uint8_t *requests, size_t bytes);
avm_answer __wrap_avm_run(const uint64_t *program, size_t words, uint32_t *memory, size_t m, uint32_t *registers, size_t count,
                          uint32_t state[AVM_STATE], const uint8_t *requests, size_t bytes);

avm_answer __wrap_avm_run(const uint64_t *program, size_t words, uint32_t *memory, size_t m, uint32_t *registers, size_t count,
                          uint32_t state[AVM_STATE], const uint8_t *requests, size_t bytes)
{
    static const avm_answer left = {AVM_LEFT_PROGRAM, 0, {0}, {0}};

    if (state[AVM_MPC] == AVM_FETCH && state[AVM_PC] == 1)
        return left;
    return __real_avm_run(program, words, memory, m, registers, count, state, requests, bytes);
}
