#include "simulator.h"

#include "images.h"
#include "instructions.h"
#include "lent.h"
#include "microword.h"
#include "phases.h"
#include "walks.h"
#include "words.h"

static avm_answer test_lent(const struct store *store, const uint32_t *registers, size_t count)
{
    avm_answer answer = test_machine(store->m, registers, count);

    return answer.number != AVM_DONE ? answer : test_program(store->urom, store->words);
}

static avm_answer test_run(const struct store *store, const uint32_t *registers, size_t count, const uint32_t *state,
                           const uint8_t *requests, size_t bytes)
{
    avm_answer answer = test_lent(store, registers, count);

    if (answer.number != AVM_DONE)
        return answer;
    if (state[AVM_MPC] >= store->words)
        return numbered(AVM_OUTSIDE, 0);
    return test_requests(requests, bytes, 3);
}

/* The MIR is tested as the word after the program's last. */
static avm_answer test_phase(const struct store *store, const uint32_t *registers, size_t count, const struct machine *machine,
                             uint8_t request)
{
    avm_answer answer = test_lent(store, registers, count);

    if (answer.number != AVM_DONE)
        return answer;
    if (!microword_is_legal(machine->mir))
        return numbered(AVM_BAD_MICROWORD, store->words);
    if (machine->mpc >= store->words || machine->clk > 3)
        return numbered(AVM_OUTSIDE, 0);
    if (request > 3)
        return numbered(AVM_BAD_REQUEST, 0);
    return numbered(AVM_DONE, 0);
}

static void load_state(struct machine *machine, const uint32_t *state)
{
    machine->psw = psw_word(psw_fields(state[AVM_PSW]));
    machine->pc = state[AVM_PC];
    machine->ir = state[AVM_IR];
    machine->mar = state[AVM_MAR];
    machine->mbr = state[AVM_MBR];
    machine->mpc = state[AVM_MPC];
    machine->ivec = state[AVM_IVEC];
}

static void copy_registers(uint32_t *to, const uint32_t *from)
{
    unsigned number;

    for (number = 0; number < 32; number++)
        to[number] = from[number];
}

static void give_back(const struct machine *machine, uint32_t *registers, uint32_t *state)
{
    copy_registers(registers, machine->reg);
    state[AVM_PSW] = machine->psw;
    state[AVM_PC] = machine->pc;
    state[AVM_IR] = machine->ir;
    state[AVM_MAR] = machine->mar;
    state[AVM_MBR] = machine->mbr;
    state[AVM_MPC] = machine->mpc;
    state[AVM_IVEC] = machine->ivec;
}

avm_answer sim_run(const uint64_t *program, size_t words, uint32_t *memory, size_t m, uint32_t *registers, size_t count,
                   uint32_t state[AVM_STATE], const uint8_t *requests, size_t bytes)
{
    struct store store = {program, words, memory, m};
    struct machine machine = {0};
    avm_answer answer = test_run(&store, registers, count, state, requests, bytes);
    size_t place;

    if (answer.number != AVM_DONE)
        return answer;
    load_state(&machine, state);
    copy_registers(machine.reg, registers);
    for (place = 0; place < bytes; place++) {
        if (!microcycle(&machine, &store, interrupt_line(requests[place]))) {
            answer.number = AVM_LEFT_PROGRAM;
            break;
        }
        answer.microcycles.count++;
        if (machine.mpc == 0)
            answer.steps.count++;
    }
    /* with no microcycle done a refused run gives even the PSW back as lent */
    if (answer.number == AVM_DONE || answer.microcycles.count > 0)
        give_back(&machine, registers, state);
    return answer;
}

avm_answer sim_phase(const uint64_t *program, size_t words, uint32_t *memory, size_t m, uint32_t *registers, size_t count,
                     uint32_t state[AVM_STATE], uint32_t latches[AVM_LATCHES], uint64_t *mir, uint32_t *phase, uint8_t request)
{
    struct store store = {program, words, memory, m};
    struct machine machine = {.alatch = latches[AVM_ALATCH], .blatch = latches[AVM_BLATCH], .ireq_ff = latches[AVM_IREQ] != 0,
                              .iack_ff = latches[AVM_IACK] != 0, .mir = *mir, .clk = *phase};
    avm_answer answer;

    load_state(&machine, state);
    answer = test_phase(&store, registers, count, &machine, request);
    if (answer.number != AVM_DONE)
        return answer;
    copy_registers(machine.reg, registers);
    switch (*phase) {
    case 0: phase_one(&machine, &store, interrupt_line(request)); break;
    case 1: phase_two(&machine); break;
    case 2: phase_three(&machine); break;
    case 3:
        if (!phase_four(&machine, &store))
            return numbered(AVM_LEFT_PROGRAM, 0);
    }
    give_back(&machine, registers, state);
    latches[AVM_ALATCH] = machine.alatch;
    latches[AVM_BLATCH] = machine.blatch;
    latches[AVM_IREQ] = machine.ireq_ff;
    latches[AVM_IACK] = machine.iack_ff;
    *mir = machine.mir;
    *phase = machine.clk;
    return answer;
}

/* Request bytes are 0 and 1 here: a macro step has no reset (the scope). */
avm_answer sim_steps(uint32_t *memory, size_t m, uint32_t *registers, size_t count, uint32_t state[AVM_STATE], const uint8_t *requests,
                     size_t bytes)
{
    struct macro_state machine = {.pc = state[AVM_PC], .ivec = state[AVM_IVEC], .psw = psw_fields(state[AVM_PSW]), .memory = memory, .m = m};
    avm_answer answer = test_machine(m, registers, count);
    size_t place;

    if (answer.number == AVM_DONE)
        answer = test_requests(requests, bytes, 1);
    if (answer.number != AVM_DONE)
        return answer;
    copy_registers(machine.reg, registers);
    for (place = 0; place < bytes; place++)
        macro_step(&machine, interrupt_line(requests[place]));
    copy_registers(registers, machine.reg);
    state[AVM_PSW] = psw_word(machine.psw);
    state[AVM_PC] = machine.pc;
    answer.steps.count = bytes;
    return answer;
}

/* Numbers 17 and 18 of the scope, and the longest walk. */
avm_answer sim_check(const uint64_t *program, size_t words)
{
    static struct walks walks;
    avm_answer answer = test_program(program, words);
    size_t word, microcycles;

    if (answer.number != AVM_DONE)
        return answer;
    find_walks(&walks, program, words);
    for (word = 0; word < words; word++)
        if (walks.reached[word] && can_leave(&walks, word))
            return numbered(AVM_WALK_LEAVES, word);
    for (word = 0; word < words; word++)
        if (walks.stands[LONGEST_ALLOWED][word])
            return numbered(AVM_WALK_NOT_BACK, word);
    for (microcycles = 1; microcycles <= LONGEST_ALLOWED; microcycles++)
        if (walks.ends[microcycles])
            answer.microcycles.count = microcycles;
    return answer;
}

/* Numbers 1 and 9 of the scope before any line. */
avm_answer sim_read(uint32_t *memory, size_t m, const uint8_t *text, size_t bytes)
{
    static struct image image;
    struct judgement judgement;

    if (!is_power_of_two_in_range(m))
        return numbered(AVM_BAD_MEMORY_LENGTH, 0);
    if (bytes > TEXT_BYTES)
        return numbered(AVM_TEXT_TOO_LONG, 0);
    take_records(&image, text, bytes);
    judgement = judge_image(&image, m);
    if (judgement.number == AVM_DONE)
        store_image(&image, memory);
    return numbered(judgement.number, judgement.line);
}

avm_answer sim_write(const uint32_t *memory, size_t m, uint8_t *room, size_t bytes)
{
    if (!is_power_of_two_in_range(m))
        return numbered(AVM_BAD_MEMORY_LENGTH, 0);
    if (bytes < written_length(m))
        return numbered(AVM_NO_ROOM, written_length(m));
    write_text(memory, m, (char *)room);
    return numbered(AVM_DONE, written_length(m));
}
