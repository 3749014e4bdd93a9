/* Words, instruction fields, the program status word, the register rule and the jump decision. Section 5.2.1 of the source (pp. 87-91)
   names the operations; the scope says what carry and overflow are. */
#ifndef SIMULATOR_WORDS_H
#define SIMULATOR_WORDS_H

#include <stdbool.h>
#include <stdint.h>

enum { SSP = 1 }; /* the supervisor stack pointer's register; the source gives no number */

/* Figure 5.1, p. 66. */
struct instruction {
    unsigned opcode, dest, srca, srcb;
    uint32_t imm;
};

/* Table 5.2, p. 65. */
struct psw {
    bool sm, ie, v, n, c, z;
};

struct alu_answer {
    uint32_t result;
    bool c, v, n, z;
};

struct shifter_answer {
    uint32_t result;
    bool carry;
};

struct instruction instruction_fields(uint32_t word);
struct psw psw_fields(uint32_t word);
uint32_t psw_word(struct psw psw);
struct alu_answer alu(unsigned code, uint32_t a, uint32_t b, bool carry);

/* The ALU's answers by kind: a sum and a difference with any carry in, and a result whose carry and overflow are false. */
struct alu_answer alu_sum(uint32_t a, uint32_t b, bool carry);
struct alu_answer alu_difference(uint32_t a, uint32_t b, bool carry);
struct alu_answer alu_plain(uint32_t result);

struct shifter_answer shifter(unsigned code, uint32_t word);
bool jump_cond(unsigned code, struct psw psw);
void update_register(uint32_t *registers, struct psw psw, unsigned number, uint32_t value);

#endif
