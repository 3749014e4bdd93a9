/* How many microcycles a step takes on the published microprogram, from fetch to its first return: a line 'ENTRY MODE OPERANDS MICROCYCLES'
   for each opcode and for the interrupt step, in both modes, with all bits beside the opcode clear and with all of them set. */
#include <stdio.h>

#include "../../include/schoonleech.h"

enum { WORDS = 16, IE = 16, SM = 32 };      /* bits of the PSW, table 5.2, p. 65                                          */
enum { OPCODES = 32, INTERRUPT_STEP = 32 }; /* the interrupt step's entry stands behind those of the opcodes, pp. 130-137 */

static uint64_t program[AVM_PROGRAM_MOST];

/* 0 where a call refuses, or does not come back within as many microcycles as there are words. */
static unsigned microcycles(uint32_t instruction, uint32_t psw, uint8_t request)
{
    uint32_t memory[WORDS] = {0}, registers[AVM_REGISTERS] = {0}, state[AVM_STATE] = {0};
    unsigned done;

    memory[0] = instruction;
    state[AVM_PSW] = psw;
    state[AVM_MPC] = AVM_FETCH;
    for (done = 1; done <= AVM_PROGRAM_MOST; done++) {
        avm_answer answer = avm_run(program, AVM_PROGRAM_MOST, memory, WORDS, registers, AVM_REGISTERS, state, &request, 1);

        if (answer.number != AVM_DONE)
            return 0;
        if (answer.steps.count == 1)
            return done;
    }
    return 0;
}

/* ie is always set, so the request alone tells the interrupt step from the instruction at PC. */
static void print_entry(uint32_t entry)
{
    static const struct { const char *name; uint32_t psw; } modes[] = {{"user", IE}, {"supervisor", IE | SM}};
    static const struct { const char *name; uint32_t bits; } operands[] = {{"clear", 0}, {"set", 0x83FFFFFF}};
    uint32_t opcode = entry % OPCODES << 26;
    size_t mode, k;

    for (mode = 0; mode < sizeof modes / sizeof *modes; mode++)
        for (k = 0; k < sizeof operands / sizeof *operands; k++)
            printf("%u %s %s %u\n", (unsigned)entry, modes[mode].name, operands[k].name,
                   microcycles(opcode | operands[k].bits, modes[mode].psw, entry == INTERRUPT_STEP));
}

int main(void)
{
    uint32_t entry;
    size_t k;

    for (k = 0; k < AVM_PROGRAM_MOST; k++)
        program[k] = avm_published(k);
    for (entry = 0; entry <= INTERRUPT_STEP; entry++)
        print_entry(entry);
    return 0;
}
