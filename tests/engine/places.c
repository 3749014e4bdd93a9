#include "places.h"

#include <string.h>

#include "../simulator/simulator.h"
#include "check.h"

const struct implementation engine = {"engine", avm_run, avm_phase, avm_steps, avm_board_microcycle, avm_board_instruction,
                                      avm_check, avm_read, avm_write};
const struct implementation simulator = {"second simulator", sim_run, sim_phase, sim_steps, sim_board_microcycle,
                                         sim_board_instruction, sim_check, sim_read, sim_write};

avm_answer call_run(const struct implementation *implementation, const struct places *p)
{
    return implementation->run(p->program, p->words, p->memory, p->m, p->registers, p->count, p->state, p->requests, p->bytes);
}

avm_answer call_phase(const struct implementation *implementation, const struct places *p, uint8_t request)
{
    return implementation->phase(p->program, p->words, p->memory, p->m, p->registers, p->count, p->state, p->latches, p->mir, p->phase,
                                 request);
}

avm_answer call_steps(const struct implementation *implementation, const struct places *p)
{
    return implementation->steps(p->memory, p->m, p->registers, p->count, p->state, p->requests, p->bytes);
}

avm_answer call_board_microcycle(const struct implementation *implementation, const struct places *p, uint8_t request)
{
    return implementation->board_microcycle(p->board, p->program, p->words, p->memory, p->m, request);
}

avm_answer call_board_instruction(const struct implementation *implementation, const struct places *p, uint8_t request)
{
    return implementation->board_instruction(p->board, p->memory, p->m, request);
}

avm_answer call_check(const struct implementation *implementation, const struct places *p)
{
    return implementation->check(p->program, p->words);
}

avm_board board_of(const uint32_t *registers, const uint32_t *state)
{
    avm_board board;

    memcpy(board.registers, registers, sizeof board.registers);
    board.psw = state[AVM_PSW];
    board.pc = state[AVM_PC];
    board.ir = state[AVM_IR];
    board.mar = state[AVM_MAR];
    board.mbr = state[AVM_MBR];
    board.mpc = state[AVM_MPC];
    board.ivec = state[AVM_IVEC];
    return board;
}

struct places places_in(struct inputs *inputs)
{
    struct places places = {inputs->program, inputs->memory, inputs->registers, inputs->state, inputs->latches, &inputs->mir,
                            &inputs->phase, &inputs->board, inputs->requests, inputs->words, inputs->m, inputs->count, inputs->bytes};

    return places;
}

enum { PROGRAM, MEMORY, REGISTERS, STATE, LATCHES, MIR, PHASE, BOARD, REQUESTS, AREAS };

static struct area areas[AREAS] = {
    AREA("program", PROGRAM_ROOM * sizeof(uint64_t), true),
    AREA("memory", MEMORY_ROOM * sizeof(uint32_t), false),
    AREA("registers", REGISTERS_ROOM * sizeof(uint32_t), false),
    AREA("state", AVM_STATE * sizeof(uint32_t), false),
    AREA("latches", AVM_LATCHES * sizeof(uint32_t), false),
    AREA("mir", sizeof(uint64_t), false),
    AREA("phase", sizeof(uint32_t), false),
    AREA("board", sizeof(avm_board), false),
    AREA("requests", REQUESTS_ROOM, true),
};

struct places lend_program(const struct inputs *in, enum side side)
{
    struct places places = {.words = in->words};

    places.program = lend_area(&areas[PROGRAM], in->program, in->words * sizeof in->program[0], side);
    return places;
}

struct places lend(const struct inputs *in, enum side side)
{
    struct places places = lend_program(in, side);

    places.memory = lend_area(&areas[MEMORY], in->memory, in->m * sizeof in->memory[0], side);
    places.registers = lend_area(&areas[REGISTERS], in->registers, in->count * sizeof in->registers[0], side);
    places.state = lend_area(&areas[STATE], in->state, sizeof in->state, side);
    places.latches = lend_area(&areas[LATCHES], in->latches, sizeof in->latches, side);
    places.mir = lend_area(&areas[MIR], &in->mir, sizeof in->mir, side);
    places.phase = lend_area(&areas[PHASE], &in->phase, sizeof in->phase, side);
    places.board = lend_area(&areas[BOARD], &in->board, sizeof in->board, side);
    places.requests = lend_area(&areas[REQUESTS], in->requests, in->bytes, side);
    places.m = in->m;
    places.count = in->count;
    places.bytes = in->bytes;
    return places;
}

void expect_nothing_beyond(const char *who)
{
    const struct area *area;

    for (area = areas; area < areas + AREAS; area++)
        expect_nothing_around(who, area);
}

void expect_same_answer(const char *who, avm_answer got, avm_answer want)
{
    expect(memcmp(&got, &want, sizeof got) == 0, "%s answers %llu at %llu, %llu microcycles, %llu steps, not %llu at %llu, %llu, %llu",
           who, (unsigned long long)got.number, (unsigned long long)got.at, (unsigned long long)got.microcycles.count,
           (unsigned long long)got.steps.count, (unsigned long long)want.number, (unsigned long long)want.at,
           (unsigned long long)want.microcycles.count, (unsigned long long)want.steps.count);
}

static void expect_same_word(const char *who, const char *name, uint64_t got, uint64_t want)
{
    expect(got == want, "%s leaves %s as %08llX, not %08llX", who, name, (unsigned long long)got, (unsigned long long)want);
}

void expect_same_words(const char *who, const char *name, const uint32_t *got, const uint32_t *want, size_t length)
{
    size_t place;

    if (length == 0 || memcmp(got, want, length * sizeof *got) == 0)
        return;
    for (place = 0; got[place] == want[place]; place++)
        continue;
    expect(false, "%s leaves %s[%zu] as %08X, not %08X", who, name, place, (unsigned)got[place], (unsigned)want[place]);
}

void expect_same_board(const char *who, const avm_board *got, const avm_board *want)
{
    if (memcmp(got, want, sizeof *got) == 0)
        return;
    expect_same_words(who, "the board's register", got->registers, want->registers, AVM_REGISTERS);
    expect_same_word(who, "the board's PSW", got->psw, want->psw);
    expect_same_word(who, "the board's PC", got->pc, want->pc);
    expect_same_word(who, "the board's IR", got->ir, want->ir);
    expect_same_word(who, "the board's MAR", got->mar, want->mar);
    expect_same_word(who, "the board's MBR", got->mbr, want->mbr);
    expect_same_word(who, "the board's MPC", got->mpc, want->mpc);
    expect_same_word(who, "the board's IVEC", got->ivec, want->ivec);
}

void expect_same_places(const char *who, const struct places *got, const struct places *want)
{
    static const char *const state[AVM_STATE] = {"PSW", "PC", "IR", "MAR", "MBR", "MPC", "IVEC"};
    static const char *const latches[AVM_LATCHES] = {"ALATCH", "BLATCH", "IREQ", "IACK"};
    size_t k;

    expect_same_words(who, "memory", got->memory, want->memory, want->m);
    expect_same_words(who, "register", got->registers, want->registers, want->count);
    for (k = 0; k < AVM_STATE; k++)
        expect_same_word(who, state[k], got->state[k], want->state[k]);
    for (k = 0; k < AVM_LATCHES; k++)
        expect_same_word(who, latches[k], got->latches[k], want->latches[k]);
    expect_same_word(who, "mir", *got->mir, *want->mir);
    expect_same_word(who, "phase", *got->phase, *want->phase);
    expect_same_board(who, got->board, want->board);
}
