/* The macro level: what a programmer sees (pp. 63-65), the instructions as their register transfer text has them (pp. 68-75), and the
   interrupt step (pp. 130-136). Microcode has no part in it. */
#ifndef SIMULATOR_INSTRUCTIONS_H
#define SIMULATOR_INSTRUCTIONS_H

#include <stdbool.h>
#include <stddef.h>
#include <stdint.h>

#include "words.h"

/* Table 5.7, p. 76: the five low bits of the opcode field, a row of the table a line. */
enum {
    OP_JMP, OP_CALL, OP_INT, OP_RTI, OP_GPSW, OP_PPSW, OP_LD, OP_ST,
    OP_LSL, OP_LSR, OP_ASR, OP_RTN, OP_NOOP_12, OP_NOOP_13, OP_LDI, OP_STI,
    OP_ADD, OP_ADDC, OP_SUB, OP_SUBC, OP_BAND, OP_BOR, OP_BXOR, OP_BNOT,
    OP_ADDI, OP_ADDCI, OP_SUBI, OP_SUBCI, OP_BANDI, OP_BORI, OP_BXORI, OP_NOOP_31,
    OP_CODES
};

/* The source's state tuple, by its names. Memory stays where the caller has it. */
struct macro_state {
    uint32_t reg[32];
    struct psw psw;
    uint32_t pc, ivec;
    uint32_t *memory;
    size_t m;
};

/* The instruction at PC, or the interrupt step where the request is up and ie is set. */
void macro_step(struct macro_state *now, bool int_e);

#endif
