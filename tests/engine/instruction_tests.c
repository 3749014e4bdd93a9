/* Single instructions that go on to the next one: what each writes and which flags it loads. Expected values are worked out by hand from the
   register transfer text (pp. 68-75) and the scope's rules for words. */
#include "hand.h"

static struct inputs before, after;

enum { FLAGS = Z | C | N | V };

/* PC is 3 before a step, and every instruction here leaves it at 4. */
static void prepare(uint32_t instruction, uint32_t psw)
{
    prepare_step(&before, &after, instruction, psw);
    after.state[AVM_PC] = 4;
}

static void set_register(unsigned number, uint32_t value)
{
    set_both_registers(&before, &after, number, value);
}

/* The instruction 9, 10, 11, with these values in registers 10 and 11. */
static void prepare_registers(unsigned opcode, uint32_t a, uint32_t b, uint32_t psw)
{
    prepare(format_1(opcode, 9, 10, 11), psw);
    set_register(10, a);
    set_register(11, b);
}

/* Its form with an immediate stands eight places further on in table 5.7 (p. 76). */
static void prepare_immediate(unsigned opcode, uint32_t a, uint32_t imm, uint32_t psw)
{
    prepare(format_2(opcode + 8, 9, 10, imm), psw);
    set_register(10, a);
}

static void check_result(uint32_t result, uint32_t psw)
{
    after.registers[9] = result;
    after.state[AVM_PSW] = psw;
    check_instruction(&before, &after);
}

/* Carry in counts for ADDC and SUBC alone, and SUBC takes the carry bit itself away. 5 - FFFFFFFF - 1 borrows, since b + c is 2^32. Second
   operands of 8000 and FFFF show that an immediate is widened with zeros. */
static const struct { unsigned opcode; uint32_t a, b, psw, result, new_psw; } sums[] = {
    {OP_ADD, 0xFFFFFFFF, 1, IE | N | V, 0, IE | C | Z},
    {OP_ADD, 0x7FFFFFFF, 1, SM | C | Z, 0x80000000, SM | N | V},
    {OP_ADD, 0x80000000, 0x80000000, 0, 0, C | V | Z},
    {OP_ADD, 5, 7, SM | IE | FLAGS, 12, SM | IE},
    {OP_ADD, 0, 0xFFFF, 0, 0xFFFF, 0},
    {OP_ADDC, 0xFFFFFFFF, 0, C, 0, C | Z},
    {OP_ADDC, 0xFFFFFFFF, 0, V | Z, 0xFFFFFFFF, N},
    {OP_ADDC, 0x7FFFFFFF, 0, C, 0x80000000, N | V},
    {OP_ADDC, 0xFFFFFFFF, 0xFFFFFFFF, C, 0xFFFFFFFF, C | N},
    {OP_ADDC, 1, 0x8000, SM | C, 0x8002, SM},
    {OP_SUB, 0, 1, IE | C, 0xFFFFFFFF, IE | N},
    {OP_SUB, 5, 5, 0, 0, C | Z},
    {OP_SUB, 5, 5, C, 0, C | Z},
    {OP_SUB, 0x80000000, 1, 0, 0x7FFFFFFF, C | V},
    {OP_SUB, 0, 0x80000000, 0, 0x80000000, N | V},
    {OP_SUB, 0x10000, 0xFFFF, SM, 1, SM | C},
    {OP_SUBC, 5, 4, C, 0, C | Z},
    {OP_SUBC, 5, 5, C | V, 0xFFFFFFFF, N},
    {OP_SUBC, 5, 5, 0, 0, C | Z},
    {OP_SUBC, 5, 0xFFFFFFFF, C, 5, 0},
    {OP_SUBC, 0x80000000, 0, C, 0x7FFFFFFF, C | V},
    {OP_SUBC, 0, 0x80000000, C, 0x7FFFFFFF, 0},
    {OP_SUBC, 0x10000, 0x8000, IE | C, 0x7FFF, IE | C},
};

static void arithmetic(void)
{
    size_t k;

    for (k = 0; k < COUNT(sums); k++) {
        stand_at_row(k);
        prepare_registers(sums[k].opcode, sums[k].a, sums[k].b, sums[k].psw);
        check_result(sums[k].result, sums[k].new_psw);
        if (sums[k].b > 0xFFFF)
            continue;
        prepare_immediate(sums[k].opcode, sums[k].a, sums[k].b, sums[k].psw);
        check_result(sums[k].result, sums[k].new_psw);
    }
}

/* BNOT reads source A alone; where it has eight added it is no instruction of this group. */
static const struct { unsigned opcode; uint32_t a, b, result, flags; } logic_rows[] = {
    {OP_BAND, 0xFFFF0000, 0x8000FFFF, 0x80000000, N},
    {OP_BAND, 0xF0F0F0F0, 0x0F0F, 0, Z},
    {OP_BAND, 0xFFFFFFFF, 0x8001, 0x8001, 0},
    {OP_BOR, 0x0F0F0000, 0x0F0F, 0x0F0F0F0F, 0},
    {OP_BOR, 0x80000001, 0x8001, 0x80008001, N},
    {OP_BOR, 0, 0, 0, Z},
    {OP_BXOR, 0xFFFFFFFF, 0xFFFF, 0xFFFF0000, N},
    {OP_BXOR, 0xABCD, 0xABCD, 0, Z},
    {OP_BXOR, 0xFFFF, 0x8001, 0x7FFE, 0},
    {OP_BNOT, 0xFFFFFFFF, 0x12345678, 0, Z},
    {OP_BNOT, 0x7FFFFFFF, 0x12345678, 0x80000000, N},
    {OP_BNOT, 0xFFFF0000, 0xFFFFFFFF, 0x0000FFFF, 0},
};

/* With all flags set and with none, so that a flag that is kept and one that is loaded both show. */
static void logic(void)
{
    static const struct { uint32_t psw, kept; } flags_before[] = {{SM, SM}, {IE | FLAGS, IE | C | V}};
    size_t k, old;

    for (k = 0; k < COUNT(logic_rows); k++)
        for (old = 0; old < COUNT(flags_before); old++) {
            uint32_t new_psw = flags_before[old].kept | logic_rows[k].flags;

            stand_at_row(k);
            prepare_registers(logic_rows[k].opcode, logic_rows[k].a, logic_rows[k].b, flags_before[old].psw);
            check_result(logic_rows[k].result, new_psw);
            if (logic_rows[k].b > 0xFFFF)
                continue;
            prepare_immediate(logic_rows[k].opcode, logic_rows[k].a, logic_rows[k].b, flags_before[old].psw);
            check_result(logic_rows[k].result, new_psw);
        }
}

static const struct { unsigned opcode; uint32_t a, result, carry; } shift_rows[] = {
    {OP_LSL, 0x80000000, 0x00000000, C},
    {OP_LSL, 0x40000001, 0x80000002, 0},
    {OP_LSR, 0x00000001, 0x00000000, C},
    {OP_LSR, 0x80000000, 0x40000000, 0},
    {OP_LSR, 0xFFFFFFFE, 0x7FFFFFFF, 0},
    {OP_ASR, 0x80000001, 0xC0000000, C},
    {OP_ASR, 0x40000000, 0x20000000, 0},
    {OP_ASR, 0xFFFFFFFE, 0xFFFFFFFF, 0},
};

static void shifts(void)
{
    static const struct { uint32_t psw, kept; } flags_before[] = {{SM, SM}, {IE | FLAGS, IE | Z | N | V}};
    size_t k, old;

    for (k = 0; k < COUNT(shift_rows); k++)
        for (old = 0; old < COUNT(flags_before); old++) {
            stand_at_row(k);
            prepare_registers(shift_rows[k].opcode, shift_rows[k].a, 0x12345678, flags_before[old].psw);
            check_result(shift_rows[k].result, flags_before[old].kept | shift_rows[k].carry);
        }
}

/* Every instruction that writes its destination from its sources. Source A is FFFFFFFF and the second operand 1, as register 11 or as the
   immediate, so their sum as an address is 0. */
static const struct { unsigned opcode; bool immediate; uint32_t result, flags; } writers[] = {
    {OP_LD, false, 0xA0000000, 0},       {OP_LDI, true, 0xA0000000, 0},
    {OP_LSL, false, 0xFFFFFFFE, C},      {OP_LSR, false, 0x7FFFFFFF, C},      {OP_ASR, false, 0xFFFFFFFF, C},
    {OP_ADD, false, 0, C | Z},           {OP_ADDI, true, 0, C | Z},
    {OP_ADDC, false, 0, C | Z},          {OP_ADDCI, true, 0, C | Z},
    {OP_SUB, false, 0xFFFFFFFE, C | N},  {OP_SUBI, true, 0xFFFFFFFE, C | N},
    {OP_SUBC, false, 0xFFFFFFFE, C | N}, {OP_SUBCI, true, 0xFFFFFFFE, C | N},
    {OP_BAND, false, 1, 0},              {OP_BANDI, true, 1, 0},
    {OP_BOR, false, 0xFFFFFFFF, N},      {OP_BORI, true, 0xFFFFFFFF, N},
    {OP_BXOR, false, 0xFFFFFFFE, N},     {OP_BXORI, true, 0xFFFFFFFE, N},
    {OP_BNOT, false, 0, Z},
};

/* Register 10 is source A, which may be the destination too. */
static const struct { unsigned dest; uint32_t mode; bool written; } destinations[] = {
    {0, 0, false}, {1, 0, false}, {7, 0, false}, {8, 0, true}, {10, 0, true}, {31, 0, true},
    {0, SM, false}, {1, SM, true}, {7, SM, true}, {8, SM, true},
};

static void register_rule(void)
{
    size_t k, row;

    for (k = 0; k < COUNT(writers); k++)
        for (row = 0; row < COUNT(destinations); row++) {
            unsigned opcode = writers[k].opcode, dest = destinations[row].dest;

            stand_at_row(k);
            prepare(writers[k].immediate ? format_2(opcode, dest, 10, 1) : format_1(opcode, dest, 10, 11), destinations[row].mode);
            set_register(10, 0xFFFFFFFF);
            set_register(11, 1);
            if (destinations[row].written)
                after.registers[dest] = writers[k].result;
            after.state[AVM_PSW] = destinations[row].mode | writers[k].flags;
            check_instruction(&before, &after);
        }
}

/* A sum that wraps at 2^32, and its remainder by M. The instruction itself stands at 3. */
static const struct { uint32_t a, b; size_t m, place; } addresses[] = {
    {4, 3, 16, 7},
    {0, 0, 16, 0},
    {15, 0, 16, 15},
    {16, 0, 16, 0},
    {15, 2, 16, 1},
    {0xFFFFFFFF, 0, 16, 15},
    {0xFFFFFFFF, 1, 16, 0},
    {0xFFFFFFFE, 0xFFFFFFFF, 16, 13},
    {16383, 0, 16384, 16383},
    {16383, 1, 16384, 0},
    {0, 0xFFFF, 16384, 16383},
    {0x80000005, 0x8000, 16384, 5},
    {0x00010000, 0xFFFF, 1024, 1023},
};

static void prepare_access(uint32_t instruction, size_t row)
{
    prepare(instruction, IE | Z);
    set_register(10, addresses[row].a);
    set_register(11, addresses[row].b);
    before.m = after.m = addresses[row].m;
}

static void check_load(uint32_t instruction, size_t row)
{
    prepare_access(instruction, row);
    after.registers[9] = 0xA0000000 + (uint32_t)addresses[row].place;
    check_instruction(&before, &after);
}

static void loads(void)
{
    size_t k;

    for (k = 0; k < COUNT(addresses); k++) {
        stand_at_row(k);
        check_load(format_1(OP_LD, 9, 10, 11), k);
        if (addresses[k].b <= 0xFFFF)
            check_load(format_2(OP_LDI, 9, 10, addresses[k].b), k);
    }
}

static void check_store(uint32_t instruction, size_t row, uint32_t stored)
{
    prepare_access(instruction, row);
    after.memory[addresses[row].place] = stored;
    check_instruction(&before, &after);
}

/* Registers 1 to 7 can be read in user mode too. */
static void stores(void)
{
    static const struct { unsigned number; uint32_t word; } stored[] = {{9, 0xB0000009}, {5, 0xB0000005}, {0, 0}};
    size_t k, which;

    for (k = 0; k < COUNT(addresses); k++)
        for (which = 0; which < COUNT(stored); which++) {
            stand_at_row(k);
            check_store(format_1(OP_ST, stored[which].number, 10, 11), k, stored[which].word);
            if (addresses[k].b <= 0xFFFF)
                check_store(format_2(OP_STI, stored[which].number, 10, addresses[k].b), k, stored[which].word);
        }
}

/* The word at PC is read before the store, so the store is done as it says, and stands there afterwards. */
static void store_over_itself(void)
{
    prepare(format_2(OP_STI, 9, 0, 3), 0);
    after.memory[3] = 0xB0000009;
    check_instruction(&before, &after);
}

static const struct { uint32_t psw; unsigned dest; uint32_t word; } status_reads[] = {
    {0, 9, 0}, {Z, 9, 1}, {C, 9, 2}, {N, 9, 4}, {V, 9, 8}, {IE, 9, 16}, {SM, 9, 32}, {SM | IE | FLAGS, 31, 63},
    {0xFFFFFFFF, 9, 63}, {0xFFFFFFC0, 9, 0}, {0x40, 9, 0}, {SM | C, 1, 34}, {SM | C, 7, 34},
};

static void status_to_register(void)
{
    static const struct { uint32_t psw; unsigned dest; } not_written[] = {{IE, 1}, {IE, 7}, {IE, 0}, {SM | IE, 0}};
    size_t k;

    for (k = 0; k < COUNT(status_reads); k++) {
        stand_at_row(k);
        prepare(format_3(OP_GPSW, status_reads[k].dest), status_reads[k].psw);
        after.registers[status_reads[k].dest] = status_reads[k].word;
        after.state[AVM_PSW] = status_reads[k].psw & 63;
        check_instruction(&before, &after);
    }
    for (k = 0; k < COUNT(not_written); k++) {
        stand_at_row(k);
        prepare(format_3(OP_GPSW, not_written[k].dest), not_written[k].psw);
        check_instruction(&before, &after);
    }
}

static const struct { uint32_t psw; unsigned dest; uint32_t word, new_psw; } status_writes[] = {
    {SM, 9, 0xFFFFFFFF, 63},
    {SM, 9, 0xFFFFFFC0, 0},
    {SM | IE | FLAGS, 9, 0x40, 0},
    {SM | IE | Z, 9, C | V, C | V},
    {SM, 9, IE, IE},
    {SM, 5, SM | N, SM | N},
    {SM | IE | FLAGS, 0, 0, 0},
    {0, 9, 0xFFFFFFFF, 0},
    {IE | C, 9, SM | V, IE | C},
    {IE | FLAGS, 9, 0, IE | FLAGS},
    {IE | FLAGS, 0, 0, IE | FLAGS},
};

static void register_to_status(void)
{
    size_t k;

    for (k = 0; k < COUNT(status_writes); k++) {
        stand_at_row(k);
        prepare(format_3(OP_PPSW, status_writes[k].dest), status_writes[k].psw);
        set_register(status_writes[k].dest, status_writes[k].word);
        after.state[AVM_PSW] = status_writes[k].new_psw;
        check_instruction(&before, &after);
    }
}

static void no_operation(void)
{
    static const unsigned opcodes[] = {OP_NOOP_12, OP_NOOP_13, OP_NOOP_31};
    static const uint32_t status[] = {0, SM | C, IE | Z | N | V};
    size_t k, row;

    for (k = 0; k < COUNT(opcodes); k++)
        for (row = 0; row < COUNT(status); row++) {
            prepare(format_4(opcodes[k]), status[row]);
            check_instruction(&before, &after);
        }
}

/* Where a step reads its instruction, and the PC after it. */
static void program_counter(void)
{
    static const struct { uint32_t pc; size_t m, place; uint32_t next; } rows[] = {
        {0, 16, 0, 1}, {15, 16, 15, 16}, {16, 16, 0, 17}, {0x80000003, 16, 3, 0x80000004}, {0xFFFFFFFF, 16, 15, 0},
        {16383, 16384, 16383, 16384}, {16384, 16384, 0, 16385}, {0xFFFFFFFF, 16384, 16383, 0},
    };
    size_t k;

    for (k = 0; k < COUNT(rows); k++) {
        stand_at_row(k);
        start_at_instruction(&before, 0);
        before.m = rows[k].m;
        before.memory[rows[k].place] = format_2(OP_ADDI, 9, 0, 77);
        before.state[AVM_PC] = rows[k].pc;
        after = before;
        after.registers[9] = 77;
        after.state[AVM_PC] = rows[k].next;
        check_instruction(&before, &after);
    }
}

const struct test instruction_tests[] = {
    {"ADD, ADDC, SUB, SUBC and their immediate forms load all four flags; SUBC takes the carry bit away", arithmetic},
    {"BAND, BOR, BXOR, BNOT and their immediate forms load n and z and keep c and v", logic},
    {"LSL, LSR and ASR load c with the bit shifted out and keep n, z and v", shifts},
    {"an instruction never writes register 0, and 1 to 7 only with sm; its flags are loaded all the same", register_rule},
    {"LD and LDI read at the wrapped sum modulo M and load no flag", loads},
    {"ST and STI store at the wrapped sum modulo M, also registers 1 to 7 in user mode", stores},
    {"a store over the instruction itself is done as the old word says", store_over_itself},
    {"GPSW gives six bits, by the register rule", status_to_register},
    {"PPSW takes six bits with sm, register 0 clears them; without sm only PC changes", register_to_status},
    {"the three no-operations change PC alone, whatever their other fields hold", no_operation},
    {"PC is read modulo M and goes on by one, wrapping at 2^32 alone", program_counter},
    {NULL, NULL},
};
