/* The phase level: the state and the four phases of section 5.2.3 of the source (pp. 110-114), and a microcycle made of them. */
#ifndef SIMULATOR_PHASES_H
#define SIMULATOR_PHASES_H

#include <stdbool.h>
#include <stddef.h>
#include <stdint.h>

/* The control store and memory stay where the caller has them. */
struct store {
    const uint64_t *urom;
    size_t words;
    uint32_t *memory;
    size_t m;
};

/* The rest of the source's state tuple, by its names. */
struct machine {
    uint32_t reg[32];
    uint32_t psw, pc, ivec, ir, mar, mbr, mpc;
    uint32_t alatch, blatch;
    bool ireq_ff, iack_ff;
    uint64_t mir;
    uint32_t clk;
};

/* The sequencer, pp. 103-110, with its arguments in the source's order. */
uint32_t mpc_unit(uint32_t mpc, unsigned opcode, unsigned addr, unsigned cond, bool ireq_ff, bool ie, bool sm);

void phase_one(struct machine *now, const struct store *store, bool int_e);
void phase_two(struct machine *now);
void phase_three(struct machine *now);

/* Answers whether it was done: not where the next address is outside the control store, and then nothing has changed. */
bool phase_four(struct machine *now, const struct store *store);

/* Four phases, or nothing at all where the fourth is not done. */
bool microcycle(struct machine *now, const struct store *store, bool int_e);

#endif
