/* Steps that lead elsewhere: jumps, calls, returns and interrupts, alone and in a program. Expected states are worked out by hand from the
   register transfer text (pp. 68-74) and from EINT and the choice of steps (pp. 130-137). */
#include "hand.h"

static struct inputs before, after;

static void prepare(uint32_t instruction, uint32_t psw)
{
    prepare_step(&before, &after, instruction, psw);
}

static void set_register(unsigned number, uint32_t value)
{
    set_both_registers(&before, &after, number, value);
}

/* Where each code jumps: bit k stands for the flags with the number k, so that z is AAAA, c CCCC, n F0F0 and v FF00. */
static const uint16_t jumps[14] = {
    0xCCCC, /* c */
    0x3333, /* not c */
    0xFF00, /* v */
    0x00FF, /* not v */
    0xF0F0, /* n */
    0x0F0F, /* not n */
    0xAAAA, /* z */
    0x5555, /* not z */
    0xBBBB, /* (not c) or z */
    0x4444, /* not ((not c) or z) */
    0x0FF0, /* n xor v */
    0xF00F, /* not (n xor v) */
    0x5005, /* not ((n xor v) or z) */
    0xAFFA, /* (n xor v) or z */
};

static void jump_codes(void)
{
    uint32_t code, flags;

    for (code = 0; code < 32; code++)
        for (flags = 0; flags < 16; flags++) {
            bool jump = code >= COUNT(jumps) || (jumps[code] >> flags & 1);

            prepare(format_2(OP_JMP, code, 10, 0x20), IE | flags);
            set_register(10, 0x100);
            after.state[AVM_PC] = jump ? 0x120 : 4;
            check_steps(&before, &after, done(0, 1));
        }
}

/* JMP if c. The sum wraps at 2^32 and nothing is copied upward from the immediate. Register 0 as base gives the immediate itself. */
static void jump_targets(void)
{
    static const struct { uint32_t psw, pc; unsigned srca; uint32_t base, imm, target; } rows[] = {
        {C, 3, 10, 0x10000000, 0x8001, 0x10008001},
        {C, 3, 10, 0xFFFFFFFF, 0x0002, 0x00000001},
        {SM | C, 3, 0, 0, 0xFFFF, 0x0000FFFF},
        {C, 3, 5, 0x12345678, 0, 0x12345678},
        {0, 3, 10, 0x10000000, 0x8001, 4},
        {SM, 0xFFFFFFF3, 10, 0x10000000, 0x8001, 0xFFFFFFF4},
    };
    size_t k;

    for (k = 0; k < COUNT(rows); k++) {
        stand_at_row(k);
        prepare(format_2(OP_JMP, 0, rows[k].srca, rows[k].imm), rows[k].psw);
        set_register(rows[k].srca, rows[k].base);
        before.state[AVM_PC] = rows[k].pc;
        after.state[AVM_PC] = rows[k].target;
        check_instruction(&before, &after);
    }
}

/* The instruction is CALL dest, srca, 8020 at PC, which is 3 modulo 16. Registers 5 and 9 get the pointer, 10 the base. */
static const struct {
    uint32_t psw, pc;
    unsigned dest, srca;
    uint32_t pointer, target;
    size_t place;
    uint32_t stored, new_pointer;
} calls[] = {
    {IE | C | N, 3, 9, 10, 6, 0x10008020, 6, 4, 7},
    {SM | V | Z, 3, 9, 10, 0xFFFFFFFF, 0x10008020, 15, 4, 0},
    {0, 3, 9, 10, 16, 0x10008020, 0, 4, 17},
    {0, 3, 9, 10, 3, 0x10008020, 3, 4, 4},
    {0, 0xFFFFFFF3, 9, 10, 6, 0x10008020, 6, 0xFFFFFFF4, 7},
    /* source A is the destination: its old value counts */
    {0, 3, 9, 9, 6, 0x8026, 6, 4, 7},
    {SM, 3, 5, 5, 6, 0x8026, 6, 4, 7},
    /* a pointer that can't be written stays, the rest is done */
    {0, 3, 5, 10, 6, 0x10008020, 6, 4, 6},
    {0, 3, 5, 5, 6, 0x8026, 6, 4, 6},
    {SM, 3, 5, 10, 6, 0x10008020, 6, 4, 7},
    {SM, 3, 0, 10, 0, 0x10008020, 0, 4, 0},
    {0, 3, 0, 0, 0, 0x8020, 0, 4, 0},
};

static void call(void)
{
    size_t k;

    for (k = 0; k < COUNT(calls); k++) {
        stand_at_row(k);
        prepare(format_2(OP_CALL, calls[k].dest, calls[k].srca, 0x8020), calls[k].psw);
        set_register(10, 0x10000000);
        set_register(calls[k].dest, calls[k].pointer);
        before.state[AVM_PC] = calls[k].pc;
        after.state[AVM_PC] = calls[k].target;
        after.memory[calls[k].place] = calls[k].stored;
        after.registers[calls[k].dest] = calls[k].new_pointer;
        check_instruction(&before, &after);
    }
}

/* A word of memory tells its place: A0000000 and the place. */
static const struct { uint32_t psw; unsigned dest; uint32_t pointer, pc, new_pointer; } returns[] = {
    {IE | C | N, 9, 7, 0xA0000006, 6},
    {SM | V | Z, 9, 0, 0xA000000F, 0xFFFFFFFF},
    {0, 9, 16, 0xA000000F, 15},
    {0, 31, 0x80000001, 0xA0000000, 0x80000000},
    {0, 7, 7, 0xA0000006, 7},
    {SM, 7, 7, 0xA0000006, 6},
    {0, 0, 0, 0xA000000F, 0},
    {SM, 0, 0, 0xA000000F, 0},
};

static void return_from_call(void)
{
    size_t k;

    for (k = 0; k < COUNT(returns); k++) {
        stand_at_row(k);
        prepare(format_3(OP_RTN, returns[k].dest), returns[k].psw);
        set_register(returns[k].dest, returns[k].pointer);
        after.state[AVM_PC] = returns[k].pc;
        after.registers[returns[k].dest] = returns[k].new_pointer;
        check_instruction(&before, &after);
    }
}

/* Register 1 is SSP. The other fields of INT mean nothing. */
static const struct { uint32_t psw, new_psw, ssp; size_t place; uint32_t new_ssp, imm, pc; } software_interrupts[] = {
    {IE | C | Z, SM | C | Z, 6, 6, 7, 0x0034, 0x34},
    {N | V, SM | N | V, 6, 6, 7, 0x1234, 0x34},
    {SM | IE | Z, SM | Z, 6, 6, 7, 0xFFFF, 0xFF},
    {SM | C | N | V, SM | C | N | V, 6, 6, 7, 0xFF00, 0},
    {0, SM, 0xFFFFFFFF, 15, 0, 0x8080, 0x80},
    {IE, SM, 16, 0, 17, 0x0001, 1},
};

static void software_interrupt(void)
{
    size_t k;

    for (k = 0; k < COUNT(software_interrupts); k++) {
        stand_at_row(k);
        prepare(format_2(OP_INT, 9, 10, software_interrupts[k].imm), software_interrupts[k].psw);
        set_register(1, software_interrupts[k].ssp);
        after.state[AVM_PSW] = software_interrupts[k].new_psw;
        after.state[AVM_PC] = software_interrupts[k].pc;
        after.memory[software_interrupts[k].place] = 4;
        after.registers[1] = software_interrupts[k].new_ssp;
        check_instruction(&before, &after);
    }
}

static const struct { uint32_t psw, new_psw, ssp, pc, new_ssp; } interrupt_returns[] = {
    {SM | C | V, IE | C | V, 7, 0xA0000006, 6},
    {SM | IE | Z, IE | Z, 7, 0xA0000006, 6},
    {SM, IE, 0, 0xA000000F, 0xFFFFFFFF},
    {C | N, IE | C | N, 7, 0xA0000006, 7},
    {IE, IE, 16, 0xA000000F, 16},
};

static void return_from_interrupt(void)
{
    size_t k;

    for (k = 0; k < COUNT(interrupt_returns); k++) {
        stand_at_row(k);
        prepare(format_4(OP_RTI), interrupt_returns[k].psw);
        set_register(1, interrupt_returns[k].ssp);
        after.state[AVM_PSW] = interrupt_returns[k].new_psw;
        after.state[AVM_PC] = interrupt_returns[k].pc;
        after.registers[1] = interrupt_returns[k].new_ssp;
        check_instruction(&before, &after);
    }
}

/* The instruction at PC is ADDI 9, 0, 5, which would change register 9 and clear all flags. */
static void prepare_interrupt(uint32_t psw, const char *request)
{
    prepare(format_2(OP_ADDI, 9, 0, 5), psw);
    ask(&before, request);
}

static const struct { uint32_t psw, new_psw, pc, ssp; size_t place; uint32_t new_ssp, ivec, new_pc; } interrupts[] = {
    {IE | C | Z, SM | C | Z, 3, 6, 6, 7, 0x12345678, 0x78},
    {SM | IE | N | V, SM | N | V, 3, 6, 6, 7, 0xFFFFFFFF, 0xFF},
    {IE, SM, 0xFFFFFFF3, 6, 6, 7, 0x00000100, 0},
    {IE, SM, 3, 0xFFFFFFFF, 15, 0, 0x00000003, 3},
    {SM | IE, SM, 3, 16, 0, 17, 0xE0000000, 0},
    {0xFFFFFFDF, SM | C | N | V | Z, 3, 6, 6, 7, 0x00000080, 0x80},
};

static void interrupt_step(void)
{
    size_t k;

    for (k = 0; k < COUNT(interrupts); k++) {
        stand_at_row(k);
        prepare_interrupt(interrupts[k].psw, "1");
        set_register(1, interrupts[k].ssp);
        before.state[AVM_PC] = interrupts[k].pc;
        before.state[AVM_IVEC] = after.state[AVM_IVEC] = interrupts[k].ivec;
        after.state[AVM_PSW] = interrupts[k].new_psw;
        after.state[AVM_PC] = interrupts[k].new_pc;
        after.memory[interrupts[k].place] = interrupts[k].pc;
        after.registers[1] = interrupts[k].new_ssp;
        check_steps(&before, &after, done(0, 1));
    }
}

static void no_interrupt_step(void)
{
    static const struct { uint32_t psw; const char *request; uint32_t new_psw; } rows[] = {
        {IE | C, "0", IE}, {C, "1", 0}, {SM | IE | Z, "0", SM | IE}, {SM | Z, "1", SM}, {N, "0", 0}, {0xFFFFFFC0, "1", 0},
    };
    size_t k;

    for (k = 0; k < COUNT(rows); k++) {
        stand_at_row(k);
        prepare_interrupt(rows[k].psw, rows[k].request);
        after.state[AVM_PSW] = rows[k].new_psw;
        after.state[AVM_PC] = 4;
        after.registers[9] = 5;
        check_steps(&before, &after, done(0, 1));
    }
}

/* The interrupt step with SSP 6 and IVEC E0000000, whose low bits are 0. */
static void expect_interrupted(uint32_t at_pc)
{
    after.memory[6] = at_pc;
    after.registers[1] = 7;
    after.state[AVM_PSW] = SM;
    after.state[AVM_PC] = 0;
}

/* PPSW sets ie in a step that a request comes with, and RTI too: the instruction is done, and the next request is taken. */
static void ie_set_in_the_step(void)
{
    prepare(format_3(OP_PPSW, 9), SM);
    set_register(9, IE);
    set_register(1, 6);
    after.state[AVM_PSW] = IE;
    after.state[AVM_PC] = 4;
    ask(&before, "1");
    check_steps(&before, &after, done(0, 1));
    ask(&before, "11");
    expect_interrupted(4);
    check_steps(&before, &after, done(0, 2));

    prepare(format_4(OP_RTI), SM);
    set_register(1, 7);
    after.registers[1] = 6;
    after.state[AVM_PSW] = IE;
    after.state[AVM_PC] = 0xA0000006;
    ask(&before, "1");
    check_steps(&before, &after, done(0, 1));
    ask(&before, "11");
    expect_interrupted(0xA0000006);
    check_steps(&before, &after, done(0, 2));
}

/* INT would clear ie in the step that a request comes with, and so would PPSW from a register that holds 0: the interrupt step is done and
   they are not. */
static void ie_cleared_in_the_step(void)
{
    prepare(format_2(OP_INT, 0, 0, 0x34), IE);
    set_register(1, 6);
    ask(&before, "1");
    expect_interrupted(3);
    check_steps(&before, &after, done(0, 1));

    prepare(format_3(OP_PPSW, 0), SM | IE);
    set_register(1, 6);
    ask(&before, "1");
    expect_interrupted(3);
    check_steps(&before, &after, done(0, 1));
}

/* Two requests in a row: the interrupt step has cleared ie, so the second step is the NOOP at 0. */
static void one_interrupt_at_a_time(void)
{
    prepare_interrupt(IE, "11");
    set_register(1, 6);
    before.memory[0] = after.memory[0] = format_4(OP_NOOP_13);
    expect_interrupted(3);
    after.state[AVM_PC] = 1;
    check_steps(&before, &after, done(0, 2));
}

/* Adds 5 + 4 + 3 + 2 + 1 by calls of the routine at 8. The routine of the interrupt, at 16, counts in register 2 and keeps the flags through
   register 3. */
static void load_program(void)
{
    start(&before);
    before.m = 32;
    before.memory[0] = format_2(OP_ADDI, 9, 0, 5);
    before.memory[1] = format_2(OP_CALL, 20, 0, 8);
    before.memory[2] = format_2(OP_SUBI, 9, 9, 1);
    before.memory[3] = format_2(OP_JMP, 7, 0, 1); /* not z */
    before.memory[4] = format_2(OP_STI, 10, 0, 30);
    before.memory[8] = format_1(OP_ADD, 10, 10, 9);
    before.memory[9] = format_3(OP_RTN, 20);
    before.memory[16] = format_3(OP_GPSW, 3);
    before.memory[17] = format_2(OP_ADDI, 2, 2, 1);
    before.memory[18] = format_3(OP_PPSW, 3);
    before.memory[19] = format_4(OP_RTI);
    before.registers[1] = 24;
    before.registers[2] = before.registers[10] = 0;
    before.registers[20] = 28;
    before.state[AVM_PSW] = IE;
    before.state[AVM_PC] = 0;
    before.state[AVM_IVEC] = 0x310;
    before.state[AVM_MPC] = 0xFFFFFFFF;
}

/* One ADDI, five times CALL, ADD, RTN, SUBI and JMP, and one STI are 27 steps. 1 - 1 is 0 with c and z, and JMP and STI keep them. */
static void expect_sum(void)
{
    after = before;
    after.memory[28] = 2;
    after.memory[30] = 15;
    after.registers[9] = 0;
    after.registers[10] = 15;
    after.state[AVM_PSW] = IE | C | Z;
    after.state[AVM_PC] = 5;
}

static void a_program(void)
{
    load_program();
    ask(&before, "000000000000000000000000000");
    expect_sum();
    check_steps(&before, &after, done(0, 27));
}

/* Each interrupt that is taken costs five steps: the interrupt step and the four of its routine. Requests come before the first CALL (step 1),
   within the routine (steps 2 to 5, not taken) and between the last SUBI and its JMP (step 30), whose flags are c and z. */
static void a_program_interrupted(void)
{
    load_program();
    ask(&before, "0111110000000000000000000000001000000");
    expect_sum();
    after.memory[24] = 3;
    after.registers[2] = 2;
    after.registers[3] = SM | C | Z;
    check_steps(&before, &after, done(0, 37));
}

const struct test flow_tests[] = {
    {"every jump code jumps on exactly its flags, 14 to 31 always", jump_codes},
    {"JMP goes to the wrapped sum of source A and the immediate, or to the next address", jump_targets},
    {"CALL stores PC + 1, moves its pointer by the register rule and jumps from the old registers", call},
    {"RTN goes to the word below its pointer, which moves by the register rule", return_from_call},
    {"INT stores PC + 1 and moves SSP in user mode too, sets sm, clears ie and goes to the low eight bits", software_interrupt},
    {"RTI sets ie and clears sm, and in user mode leaves SSP", return_from_interrupt},
    {"the interrupt step stores PC itself, moves SSP in user mode too, keeps the flags and masks the vector", interrupt_step},
    {"the interrupt step needs both the request and ie", no_interrupt_step},
    {"ie that an instruction sets counts from the next step on", ie_set_in_the_step},
    {"ie is tested before the instruction could clear it", ie_cleared_in_the_step},
    {"a second request is not taken until ie is set again", one_interrupt_at_a_time},
    {"a program of calls and jumps does its 27 steps", a_program},
    {"interrupts in the midst of it cost their own steps and change nothing else", a_program_interrupted},
    {NULL, NULL},
};
