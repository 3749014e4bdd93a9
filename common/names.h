/* The names that docs/AVM1.md has for flags, for instructions and for the fields of a microword. */
#ifndef COMMON_NAMES_H
#define COMMON_NAMES_H

#include "schoonleech.h"

/* The flags of the PSW from the highest bit down, as table 5.2 (p. 65) has them. */
struct flag {
    const char *name;
    uint32_t mask;
};

enum { FLAGS = 6 };
extern const struct flag flags[FLAGS];

/* The name of the instruction with that opcode. */
const char *mnemonic(unsigned opcode);

enum { INSTRUCTION_ROOM = 20 };

/* An instruction word as the listings have it, such as ADDI r8 r0 1: the operands are those of its format. */
const char *tell_instruction(uint32_t word, char room[INSTRUCTION_ROOM]);

/* The fields of a microword from the top. */
enum {
    FIELD_AMUX, FIELD_SHFT, FIELD_ALU, FIELD_MAR, FIELD_MBR, FIELD_PMUX, FIELD_SRCA, FIELD_SRCB, FIELD_TRGT,
    FIELD_S_SM, FIELD_C_SM, FIELD_S_IE, FIELD_C_IE, FIELD_LD_C, FIELD_LD_V, FIELD_LD_N, FIELD_LD_Z, FIELD_CSRC,
    FIELD_IACK, FIELD_FTCH, FIELD_RD, FIELD_WR,
    FIELD_COND, FIELD_ADDR,
    FIELDS
};

enum { CODES_MOST = AVM_FIELD_ALU_MOST + 1 }; /* no field has more codes with a name */

struct field {
    const char *name;
    unsigned shift, width;
    unsigned most;                 /* the highest code */
    const char *codes[CODES_MOST]; /* by name; NULL where a code is a number, or a bit that is set or not */
};

extern const struct field fields[FIELDS];

/* The code that the field has in a microword. It can be above the most. */
unsigned code_of(const struct field *field, uint64_t microword);

#endif
