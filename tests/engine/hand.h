/* Cases made by hand: their inputs and what the documents say must come of them. */
#ifndef ENGINE_HAND_H
#define ENGINE_HAND_H

#include "../simulator/instructions.h"
#include "../simulator/microword.h"
#include "check.h"
#include "places.h"

enum { Z = 1, C = 2, N = 4, V = 8, IE = 16, SM = 32 }; /* bits of the PSW, table 5.2, p. 65 */

/* A microword from its fields, packed in the order of table 5.12 (p. 119). */
uint64_t pack(struct microword fields);

/* NOOP_u1: nothing but a jump to word 0. */
struct microword idle(void);

/* An idle word in that place of the program, but with that condition and address. */
void lead(struct inputs *inputs, size_t place, unsigned cond, unsigned addr);

/* Inputs as `start` makes them, with a store of that many words, each of which leads to fetch alone; and a jump in it. */
void start_store(struct inputs *inputs, size_t words);
void jump(struct inputs *inputs, size_t from, size_t to);

/* Instruction words by their format (figure 5.1, p. 66). Bits that a format does not use are set: they mean nothing. */
uint32_t format_1(unsigned opcode, unsigned dest, unsigned srca, unsigned srcb);
uint32_t format_2(unsigned opcode, unsigned dest, unsigned srca, uint32_t imm);
uint32_t format_3(unsigned opcode, unsigned dest);
uint32_t format_4(unsigned opcode);

/* Inputs that no call refuses, with something of its own in every word: a program of one idle word, 16 words of memory, PC 3, MPC 0, one
   request byte 0, and nothing in the PSW. The board has the same registers and state words. */
void start(struct inputs *inputs);

/* The same with that instruction at PC. MPC is one that only steps take. */
void start_at_instruction(struct inputs *inputs, uint32_t instruction);

/* The same with that PSW, before a step and, until the test says more, after it; and a register's value in both. */
void prepare_step(struct inputs *before, struct inputs *after, uint32_t instruction, uint32_t psw);
void set_both_registers(struct inputs *before, struct inputs *after, unsigned number, uint32_t value);

/* Request bytes by their digits. */
void ask(struct inputs *inputs, const char *digits);

/* Puts the published microprogram into the inputs, with MPC at fetch. */
void publish(struct inputs *inputs);

avm_answer done(uint64_t microcycles, uint64_t steps);
avm_answer left(uint64_t microcycles, uint64_t steps);
avm_answer refused(uint64_t number, uint64_t at);
avm_answer accepted(uint64_t microcycles);
avm_answer taken(uint64_t at); /* of an image: 0 where it was read, its bytes where it was written */

/* Expect the answer and the final content of every place, of the engine and of the second simulator, on both sides of a guard page. */
void check_run(const struct inputs *before, const struct inputs *after, avm_answer want);
void check_phase(const struct inputs *before, const struct inputs *after, avm_answer want, uint8_t request);
void check_steps(const struct inputs *before, const struct inputs *after, avm_answer want);
void check_board_microcycle(const struct inputs *before, const struct inputs *after, avm_answer want, uint8_t request);
void check_board_instruction(const struct inputs *before, const struct inputs *after, avm_answer want, uint8_t request);

/* Expects avm_check's answer of both, on both sides of a guard page. Nothing is lent but the program, which can't be written. */
void check_walks(const struct inputs *store, avm_answer want);

/* One step, and the same with bit 31 of the instruction word turned round: that bit is ignored. Both inputs come back with it so. */
void check_instruction(struct inputs *before, struct inputs *after);

extern const struct test word_tests[], program_tests[], phase_tests[], refusal_tests[], random_tests[];
extern const struct test instruction_tests[], flow_tests[], step_refusal_tests[], published_tests[], random_step_tests[];
extern const struct test walk_tests[], walk_refusal_tests[], stack_tests[], random_walk_tests[];
extern const struct test read_tests[], read_refusal_tests[], write_tests[], random_image_tests[];
extern const struct test board_tests[], board_refusal_tests[], random_board_tests[];

#endif
