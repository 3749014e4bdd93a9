/* The bench board: one microcycle and one step of the machine whose registers and state words are one record. */
#include "simulator.h"

#include <string.h>

#include "instructions.h"
#include "lent.h"
#include "phases.h"
#include "words.h"

/* Numbers 1 and 3 to 7: a board has all its registers, so that there is no 2. */
static avm_answer test_microcycle(const avm_board *board, const struct store *store, uint8_t request)
{
    avm_answer answer = test_machine(store->m, board->registers, AVM_REGISTERS);

    if (answer.number == AVM_DONE)
        answer = test_program(store->urom, store->words);
    if (answer.number == AVM_DONE && board->mpc >= store->words)
        answer = numbered(AVM_OUTSIDE, 0);
    if (answer.number == AVM_DONE)
        answer = test_requests(&request, 1, 3);
    return answer;
}

/* Numbers 1, 3 and 7. */
static avm_answer test_instruction(const avm_board *board, size_t m, uint8_t request)
{
    avm_answer answer = test_machine(m, board->registers, AVM_REGISTERS);

    return answer.number != AVM_DONE ? answer : test_requests(&request, 1, 1);
}

/* Everything that a board has is a part of the phase level's machine. Of its PSW six bits count. */
static struct machine machine_of(const avm_board *board)
{
    struct machine machine = {.psw = psw_word(psw_fields(board->psw)), .pc = board->pc, .ir = board->ir, .mar = board->mar,
                              .mbr = board->mbr, .mpc = board->mpc, .ivec = board->ivec};

    memcpy(machine.reg, board->registers, sizeof machine.reg);
    return machine;
}

static avm_board board_showing(const struct machine *machine)
{
    avm_board board = {.psw = machine->psw, .pc = machine->pc, .ir = machine->ir, .mar = machine->mar, .mbr = machine->mbr,
                       .mpc = machine->mpc, .ivec = machine->ivec};

    memcpy(board.registers, machine->reg, sizeof board.registers);
    return board;
}

/* A microcycle that is not done has stored nothing, and the board is written only after one that is: refused, all is as lent. */
avm_answer sim_board_microcycle(avm_board *board, const uint64_t *program, size_t words, uint32_t *memory, size_t m, uint8_t request)
{
    struct store store = {program, words, memory, m};
    struct machine machine = machine_of(board);
    avm_answer answer = test_microcycle(board, &store, request);

    if (answer.number != AVM_DONE)
        return answer;
    if (!microcycle(&machine, &store, interrupt_line(request)))
        return numbered(AVM_LEFT_PROGRAM, 0);
    *board = board_showing(&machine);
    answer.microcycles.count = 1;
    answer.steps.count = board->mpc == AVM_FETCH;
    return answer;
}

/* The macro level has no IR, MAR, MBR and MPC, and only reads IVEC: these stay on the board as they are. */
avm_answer sim_board_instruction(avm_board *board, uint32_t *memory, size_t m, uint8_t request)
{
    struct macro_state machine = {.psw = psw_fields(board->psw), .pc = board->pc, .ivec = board->ivec, .memory = memory, .m = m};
    avm_answer answer = test_instruction(board, m, request);

    if (answer.number != AVM_DONE)
        return answer;
    memcpy(machine.reg, board->registers, sizeof machine.reg);
    macro_step(&machine, interrupt_line(request));
    memcpy(board->registers, machine.reg, sizeof machine.reg);
    board->psw = psw_word(machine.psw);
    board->pc = machine.pc;
    answer.steps.count = 1;
    return answer;
}
