/* The bench board: the record as C has it, and microcycles and steps that are done where it stands. Expected boards are worked out by hand
   from the definitions of the phases (pp. 110-114) and the register transfer text (pp. 68-75). */
#include "hand.h"

#include <string.h>

static struct inputs before, after;

/* 39 words without a gap: 32 registers, and then what the state block has, in its order. */
static void layout(void)
{
    static const size_t fields[AVM_STATE] = {
        offsetof(avm_board, psw), offsetof(avm_board, pc), offsetof(avm_board, ir), offsetof(avm_board, mar),
        offsetof(avm_board, mbr), offsetof(avm_board, mpc), offsetof(avm_board, ivec),
    };
    size_t k;

    expect(sizeof(avm_board) == 156, "a board has %zu bytes", sizeof(avm_board));
    expect(offsetof(avm_board, registers) == 0, "the registers start at byte %zu", offsetof(avm_board, registers));
    for (k = 0; k < AVM_STATE; k++)
        expect(fields[k] == 128 + 4 * k, "field %zu after the registers starts at byte %zu", k, fields[k]);
}

/* Does what was prepared; the next microcycle or step goes on from there. */
static void microcycle(uint8_t request, uint64_t steps)
{
    check_board_microcycle(&before, &after, done(1, steps), request);
    before = after;
}

static void step(uint8_t request)
{
    check_board_instruction(&before, &after, done(0, 1), request);
    before = after;
}

/* The published microprogram at fetch, and ADD 9, 10, 11 at PC, that is FFFFFFFF + 1. The PSW has bits that mean nothing. */
static void start_at_add(void)
{
    start(&before);
    publish(&before);
    before.memory[3] = format_1(OP_ADD, 9, 10, 11);
    before.board.registers[10] = 0xFFFFFFFF;
    before.board.registers[11] = 1;
    before.board.psw = 0xFFFFFFC0 | SM | N | V;
    after = before;
    after.board.psw = SM | N | V;
}

static void add(void)
{
    after.board.registers[9] = 0;
    after.board.psw = SM | C | Z;
}

/* FETCH, ISSUE, DECODE, which goes to 4 + 16, and ADD_u1. */
static void microcycles_of_an_instruction(void)
{
    start_at_add();
    after.board.mar = 3;
    after.board.mbr = before.memory[3];
    after.board.mpc = 1;
    microcycle(0, 0);
    after.board.ir = before.memory[3];
    after.board.mpc = 2;
    microcycle(0, 0);
    after.board.pc = 4;
    after.board.mpc = 20;
    microcycle(0, 0);
    add();
    after.board.mpc = 0;
    microcycle(0, 1);
}

static void step_of_an_instruction(void)
{
    start_at_add();
    add();
    after.board.pc = 4;
    step(0);
}

/* After FETCH the step does the instruction at PC, and ISSUE goes on with the MBR of before. */
static void step_between_microcycles(void)
{
    start_at_add();
    after.board.mar = 3;
    after.board.mbr = before.memory[3];
    after.board.mpc = 1;
    microcycle(0, 0);
    add();
    after.board.pc = 4;
    step(0);
    after.board.ir = before.memory[3];
    after.board.mpc = 2;
    microcycle(0, 0);
}

/* PC + IVEC is 3 + E0000000, which goes to MAR and to the register that IR names. The word at the old MAR goes to MBR, and the old MBR
   there. */
static void one_microword_with_every_field(void)
{
    struct microword word = idle();

    word.alu = ALU_ADD;
    word.srca = SRCA_PC;
    word.srcb = SRCB_IVEC;
    word.trgt = TRGT_REG_FILE;
    word.mar = word.rd = word.wr = word.ld_c = word.csrc = word.ld_v = word.ld_n = word.ld_z = true;
    word.cond = COND_STEP;
    start(&before);
    before.words = 3;
    before.program[1] = pack(word);
    before.board.ir = 31u << 21;
    before.board.psw = SM | C | V | Z;
    before.board.mpc = 1;
    after = before;
    after.memory[5] = 0xD0000000;
    after.board.registers[31] = after.board.mar = 0xE0000003;
    after.board.mbr = 0xA0000005;
    after.board.psw = SM | N;
    after.board.mpc = 2;
    microcycle(0, 0);
}

/* From a word to another, or to itself. Word 63 steps to 0. */
static void returns(void)
{
    static const struct { size_t words; uint32_t mpc; unsigned cond, addr; uint32_t next; uint64_t steps; } rows[] = {
        {1, 0, COND_JMP, 0, 0, 1}, {2, 1, COND_JMP, 0, 0, 1}, {64, 63, COND_STEP, 5, 0, 1}, {2, 0, COND_JMP, 1, 1, 0},
        {2, 0, COND_STEP, 0, 1, 0}, {3, 1, COND_JMP, 1, 1, 0}, {64, 62, COND_STEP, 0, 63, 0}, {64, 63, COND_JMP, 32, 32, 0},
    };
    size_t k;

    for (k = 0; k < COUNT(rows); k++) {
        stand_at_row(k);
        start(&before);
        before.words = rows[k].words;
        lead(&before, rows[k].mpc, rows[k].cond, rows[k].addr);
        before.board.mpc = rows[k].mpc;
        after = before;
        after.board.mpc = rows[k].next;
        microcycle(0, rows[k].steps);
    }
}

/* Word 0 goes to 2 where the interrupt bit is up and ie is set, and else to 1. */
static void requests_of_a_microcycle(void)
{
    static const struct { uint8_t request; uint32_t psw, mpc; } rows[] = {
        {0, IE, 1}, {1, IE, 2}, {2, IE, 1}, {3, IE, 2}, {1, SM, 1}, {3, SM, 1},
    };
    size_t k;

    for (k = 0; k < COUNT(rows); k++) {
        stand_at_row(k);
        start(&before);
        before.words = 3;
        lead(&before, 0, COND_JINT, 2);
        before.board.psw = rows[k].psw;
        after = before;
        after.board.mpc = rows[k].mpc;
        microcycle(rows[k].request, 0);
    }
}

/* STI 9, 10, 4: register 9 goes to 10008 + 4, that is word 12. */
static void step_that_stores(void)
{
    start(&before);
    before.memory[3] = format_2(OP_STI, 9, 10, 4);
    before.board.registers[10] = 0x10008;
    after = before;
    after.memory[12] = 0xB0000009;
    after.board.pc = 4;
    step(0);
}

/* CALL 9, 0, 20 at PC. Register 9 is 12 and SSP 6. */
static void start_to_interrupt(uint32_t psw)
{
    start(&before);
    before.memory[3] = format_2(OP_CALL, 9, 0, 0x20);
    before.board.registers[1] = 6;
    before.board.registers[9] = 12;
    before.board.psw = psw;
    before.board.ivec = 0x12345678;
    after = before;
}

/* The interrupt step where a request is up and ie is set, and else CALL: it stores 4 at 12, moves register 9 up and goes to 20. */
static void requests_of_a_step(void)
{
    static const struct { uint32_t psw; uint8_t request; } calls[] = {{IE, 0}, {0, 1}, {SM, 1}};
    size_t k;

    start_to_interrupt(0xFFFFFFC0 | IE | C);
    after.memory[6] = 3;
    after.board.registers[1] = 7;
    after.board.psw = SM | C;
    after.board.pc = 0x78;
    step(1);
    for (k = 0; k < COUNT(calls); k++) {
        stand_at_row(k);
        start_to_interrupt(calls[k].psw);
        after.memory[12] = 4;
        after.board.registers[9] = 13;
        after.board.pc = 0x20;
        step(calls[k].request);
    }
}

/* GPSW 9 takes them from the PSW, and a microword that puts the PSW into register 9 too. */
static void other_bits_are_not_seen(void)
{
    struct microword word = idle();

    start(&before);
    before.memory[3] = format_3(OP_GPSW, 9);
    before.board.psw = 0xFFFFFFC0 | SM | N;
    after = before;
    after.board.registers[9] = after.board.psw = SM | N;
    after.board.pc = 4;
    step(0);

    word.srca = SRCA_PSW;
    word.trgt = TRGT_REG_FILE;
    start(&before);
    before.program[0] = pack(word);
    before.board.ir = 9u << 21;
    before.board.psw = 0x80000040 | IE | Z;
    after = before;
    after.board.registers[9] = after.board.psw = IE | Z;
    microcycle(0, 1);
}

/* An idle microword, and a NOOP. */
static void other_bits_are_dropped(void)
{
    static const uint32_t words[] = {0xFFFFFFFF, 0xFFFFFFC0, 0x40, 0x80000001, 0x3F, 0};
    size_t k;

    for (k = 0; k < COUNT(words); k++) {
        stand_at_row(k);
        start(&before);
        before.memory[3] = format_4(OP_NOOP_12);
        before.board.psw = words[k];
        after = before;
        after.board.psw = words[k] & 0x3F;
        check_board_microcycle(&before, &after, done(1, 1), 0);
        after.board.pc = 4;
        check_board_instruction(&before, &after, done(0, 1), 0);
    }
}

/* Whatever they are, in an instruction and in the interrupt step. Of IVEC that one takes eight bits. */
static void words_that_a_step_keeps(void)
{
    static const uint32_t words[] = {0, 1, 63, 64, 0x12345678, 0x80000000, 0xFFFFFFFF};
    size_t k;

    for (k = 0; k < COUNT(words); k++) {
        stand_at_row(k);
        start_to_interrupt(IE);
        before.memory[3] = after.memory[3] = format_4(OP_NOOP_31);
        before.board.ir = before.board.mar = before.board.mbr = before.board.mpc = before.board.ivec = words[k];
        after.board.ir = after.board.mar = after.board.mbr = after.board.mpc = after.board.ivec = words[k];
        after.board.pc = 4;
        check_board_instruction(&before, &after, done(0, 1), 0);
        after.memory[6] = 3;
        after.board.registers[1] = 7;
        after.board.psw = SM;
        after.board.pc = words[k] & 0xFF;
        check_board_instruction(&before, &after, done(0, 1), 1);
    }
}

const struct test board_tests[] = {
    {"a board is 39 words: the registers and then the state words, in their order", layout},
    {"board: four microcycles of the published microprogram do an ADD, and the fourth counts a step", microcycles_of_an_instruction},
    {"board: one step does the same ADD and leaves IR, MAR, MBR and MPC", step_of_an_instruction},
    {"board: a step between two microcycles starts from PC and leaves the microprogram where it is", step_between_microcycles},
    {"board: a microword finds and leaves each word in its field", one_microword_with_every_field},
    {"board: a microcycle counts a step exactly where MPC comes to fetch", returns},
    {"board: of a microcycle's request the interrupt bit counts, with ie", requests_of_a_microcycle},
    {"board: a step stores into memory", step_that_stores},
    {"board: a step is the interrupt step exactly if its request is 1 and ie is set", requests_of_a_step},
    {"board: the PSW's other bits are not seen by a microcycle or a step", other_bits_are_not_seen},
    {"board: a microcycle and a step that are done drop the PSW's other bits", other_bits_are_dropped},
    {"board: a step keeps IR, MAR, MBR, MPC and IVEC, whatever they are", words_that_a_step_keeps},
    {NULL, NULL},
};
