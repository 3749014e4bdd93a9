/* The microword: 24 fields in 40 bits (table 5.12, p. 119) and the codes that tables 5.13 to 5.18 name (pp. 120-123). */
#ifndef SIMULATOR_MICROWORD_H
#define SIMULATOR_MICROWORD_H

#include <stdbool.h>
#include <stdint.h>

enum { SHFT_SHL, SHFT_SHR, SHFT_ASR, SHFT_NSH };
enum { ALU_ADD, ALU_ADDC, ALU_INC, ALU_SUB, ALU_SUBC, ALU_DEC, ALU_BAND, ALU_BXOR, ALU_BOR, ALU_BNOT, ALU_NOP, ALU_CODES };
enum { SRCA_REG_FILE, SRCA_REG_DEST, SRCA_SSP, SRCA_PSW, SRCA_C255, SRCA_PC, SRCA_CODES };
enum { SRCB_REG_FILE, SRCB_IVEC, SRCB_IR, SRCB_CODES };
enum { TRGT_REG_FILE, TRGT_SSP, TRGT_PSW, TRGT_IR, TRGT_PC, TRGT_PCJ, TRGT_NOREG, TRGT_CODES };
enum { COND_STEP, COND_JMP, COND_JOP, COND_JINT, COND_JSM, COND_CODES };

struct microword {
    bool amux;
    unsigned shft, alu;
    bool mar, mbr, pmux;
    unsigned srca, srcb, trgt;
    bool s_sm, c_sm, s_ie, c_ie, ld_c, ld_v, ld_n, ld_z, csrc;
    bool iack, ftch, rd, wr;
    unsigned cond, addr;
    uint64_t unused; /* what stands above the first field */
};

struct microword microword_fields(uint64_t number);
bool microword_is_legal(uint64_t number);

#endif
