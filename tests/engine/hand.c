#include "hand.h"

#include <string.h>

/* Puts a field below what the number has so far. */
static void put(uint64_t *number, unsigned width, uint64_t field)
{
    *number = *number << width | field;
}

uint64_t pack(struct microword fields)
{
    uint64_t number = 0;

    put(&number, 1, fields.amux);
    put(&number, 2, fields.shft);
    put(&number, 4, fields.alu);
    put(&number, 1, fields.mar);
    put(&number, 1, fields.mbr);
    put(&number, 1, fields.pmux);
    put(&number, 3, fields.srca);
    put(&number, 2, fields.srcb);
    put(&number, 3, fields.trgt);
    put(&number, 1, fields.s_sm);
    put(&number, 1, fields.c_sm);
    put(&number, 1, fields.s_ie);
    put(&number, 1, fields.c_ie);
    put(&number, 1, fields.ld_c);
    put(&number, 1, fields.ld_v);
    put(&number, 1, fields.ld_n);
    put(&number, 1, fields.ld_z);
    put(&number, 1, fields.csrc);
    put(&number, 1, fields.iack);
    put(&number, 1, fields.ftch);
    put(&number, 1, fields.rd);
    put(&number, 1, fields.wr);
    put(&number, 3, fields.cond);
    put(&number, 6, fields.addr);
    return number;
}

static uint32_t instruction_word(unsigned opcode, unsigned dest, unsigned srca, uint32_t low)
{
    return (uint32_t)opcode << 26 | (uint32_t)dest << 21 | (uint32_t)srca << 16 | low;
}

uint32_t format_1(unsigned opcode, unsigned dest, unsigned srca, unsigned srcb)
{
    return instruction_word(opcode, dest, srca, (uint32_t)srcb << 11 | 0x7FF);
}

uint32_t format_2(unsigned opcode, unsigned dest, unsigned srca, uint32_t imm)
{
    return instruction_word(opcode, dest, srca, imm);
}

uint32_t format_3(unsigned opcode, unsigned dest)
{
    return instruction_word(opcode, dest, 31, 0xFFFF);
}

uint32_t format_4(unsigned opcode)
{
    return instruction_word(opcode, 31, 31, 0xFFFF);
}

struct microword idle(void)
{
    struct microword word;

    memset(&word, 0, sizeof word);
    word.shft = SHFT_NSH;
    word.alu = ALU_NOP;
    word.srca = SRCA_PC;
    word.srcb = SRCB_IR;
    word.trgt = TRGT_NOREG;
    word.cond = COND_JMP;
    return word;
}

void lead(struct inputs *in, size_t place, unsigned cond, unsigned addr)
{
    struct microword word = idle();

    word.cond = cond;
    word.addr = addr;
    in->program[place] = pack(word);
}

void start_store(struct inputs *inputs, size_t words)
{
    start(inputs);
    inputs->words = words;
}

void jump(struct inputs *inputs, size_t from, size_t to)
{
    lead(inputs, from, COND_JMP, (unsigned)to);
}

void start(struct inputs *in)
{
    size_t k;

    memset(in, 0, sizeof *in);
    for (k = 0; k < PROGRAM_ROOM; k++)
        in->program[k] = pack(idle());
    for (k = 0; k < MEMORY_ROOM; k++)
        in->memory[k] = 0xA0000000u + (uint32_t)k;
    for (k = 1; k < REGISTERS_ROOM; k++)
        in->registers[k] = 0xB0000000u + (uint32_t)k;
    in->words = in->bytes = 1;
    in->m = 16;
    in->count = AVM_REGISTERS;
    in->state[AVM_PC] = 3;
    in->state[AVM_IR] = 0xC0000000u;
    in->state[AVM_MAR] = 5;
    in->state[AVM_MBR] = 0xD0000000u;
    in->state[AVM_IVEC] = 0xE0000000u;
    in->latches[AVM_ALATCH] = 0xF0000001u;
    in->latches[AVM_BLATCH] = 0xF0000002u;
    in->mir = pack(idle());
    in->board = board_of(in->registers, in->state);
}

void start_at_instruction(struct inputs *in, uint32_t instruction)
{
    start(in);
    in->memory[3] = instruction;
    in->state[AVM_MPC] = 0xFFFFFFFF;
}

void prepare_step(struct inputs *before, struct inputs *after, uint32_t instruction, uint32_t psw)
{
    start_at_instruction(before, instruction);
    before->state[AVM_PSW] = psw;
    *after = *before;
}

void set_both_registers(struct inputs *before, struct inputs *after, unsigned number, uint32_t value)
{
    before->registers[number] = after->registers[number] = value;
}

void ask(struct inputs *in, const char *digits)
{
    for (in->bytes = 0; digits[in->bytes] != '\0'; in->bytes++)
        in->requests[in->bytes] = (uint8_t)(digits[in->bytes] - '0');
}

void publish(struct inputs *in)
{
    size_t k;

    in->words = AVM_PROGRAM_MOST;
    for (k = 0; k < in->words; k++)
        in->program[k] = avm_published(k);
    in->state[AVM_MPC] = AVM_FETCH;
}

avm_answer done(uint64_t microcycles, uint64_t steps)
{
    avm_answer answer = {AVM_DONE, 0, {microcycles}, {steps}};

    return answer;
}

avm_answer left(uint64_t microcycles, uint64_t steps)
{
    avm_answer answer = {AVM_LEFT_PROGRAM, 0, {microcycles}, {steps}};

    return answer;
}

avm_answer refused(uint64_t number, uint64_t at)
{
    avm_answer answer = {number, at, {0}, {0}};

    return answer;
}

avm_answer accepted(uint64_t microcycles)
{
    return done(microcycles, 0);
}

avm_answer taken(uint64_t at)
{
    avm_answer answer = {AVM_DONE, at, {0}, {0}};

    return answer;
}

static const struct implementation *const both[] = {&engine, &simulator};

static void expect_outcome(const char *who, avm_answer got, avm_answer want, const struct places *places, const struct inputs *after)
{
    static struct inputs copy;
    struct places wanted;

    copy = *after;
    wanted = places_in(&copy);
    expect_same_answer(who, got, want);
    expect_same_places(who, places, &wanted);
    expect_nothing_beyond(who);
}

enum call { RUN, PHASE, STEPS, BOARD_MICROCYCLE, BOARD_INSTRUCTION };

static avm_answer call(enum call which, const struct implementation *implementation, const struct places *places, uint8_t request)
{
    switch (which) {
    case RUN: return call_run(implementation, places);
    case PHASE: return call_phase(implementation, places, request);
    case BOARD_MICROCYCLE: return call_board_microcycle(implementation, places, request);
    case BOARD_INSTRUCTION: return call_board_instruction(implementation, places, request);
    default: return call_steps(implementation, places);
    }
}

/* The request is that of a call which takes one. */
static void check(enum call which, const struct inputs *before, const struct inputs *after, avm_answer want, uint8_t request)
{
    int who, side;

    for (who = 0; who < 2; who++)
        for (side = 0; side < SIDES; side++) {
            struct places places = lend(before, side);
            avm_answer got = call(which, both[who], &places, request);

            expect_outcome(both[who]->name, got, want, &places, after);
        }
}

void check_run(const struct inputs *before, const struct inputs *after, avm_answer want)
{
    check(RUN, before, after, want, 0);
}

void check_phase(const struct inputs *before, const struct inputs *after, avm_answer want, uint8_t request)
{
    check(PHASE, before, after, want, request);
}

void check_steps(const struct inputs *before, const struct inputs *after, avm_answer want)
{
    check(STEPS, before, after, want, 0);
}

void check_board_microcycle(const struct inputs *before, const struct inputs *after, avm_answer want, uint8_t request)
{
    check(BOARD_MICROCYCLE, before, after, want, request);
}

void check_board_instruction(const struct inputs *before, const struct inputs *after, avm_answer want, uint8_t request)
{
    check(BOARD_INSTRUCTION, before, after, want, request);
}

void check_walks(const struct inputs *store, avm_answer want)
{
    int who, side;

    for (who = 0; who < 2; who++)
        for (side = 0; side < SIDES; side++) {
            struct places places = lend_program(store, side);

            expect_same_answer(both[who]->name, call_check(both[who], &places), want);
        }
}

void check_instruction(struct inputs *before, struct inputs *after)
{
    size_t place = before->state[AVM_PC] % before->m;
    bool kept = after->memory[place] == before->memory[place];

    check_steps(before, after, done(0, 1));
    before->memory[place] ^= 0x80000000u;
    if (kept)
        after->memory[place] ^= 0x80000000u;
    check_steps(before, after, done(0, 1));
}
