#include "run.h"

#include "../common/names.h"
#include "../common/numbers.h"

void start_run(struct run *run, const struct microprogram *program, const struct requests *requests)
{
    const avm_answer nothing = {AVM_DONE, 0, {0}, {0}};

    run->program = program;
    run->board = requests->start;
    run->requests = start_request_line(requests);
    run->progress = start_progress(requests->until);
    run->until = requests->until;
    run->done.count = run->points.count = 0;
    run->at_fetch_point = false;
    run->refused = nothing;
}

/* The step that begins on this board. Request and ie are looked at here and nowhere else in a step. */
static struct step step_from(const struct board *board)
{
    struct step step;

    step.interrupt = board->ireq == 1 && (board->state[AVM_PSW] & AVM_PSW_IE) != 0;
    step.address = board->state[AVM_PC] % (uint32_t)board->m;
    step.opcode = AVM_INSTRUCTION_FIELD(board->memory[step.address], OPCODE);
    return step;
}

bool next_microcycle(struct run *run)
{
    struct board *board = &run->board;
    avm_answer answer;
    uint8_t request;

    if (run->done.count == run->until.count)
        return false;
    request = request_of(&run->requests, run->done.count + 1);
    board->ireq = (request & AVM_REQUEST_INTERRUPT) != 0;
    if (board->state[AVM_MPC] == AVM_FETCH)
        run->step = step_from(board);
    answer = avm_run(run->program->words, run->program->count, board->memory, board->m, board->registers, AVM_REGISTERS, board->state,
                     &request, 1);
    if (answer.number != AVM_DONE) {
        run->refused = answer;
        return false;
    }
    run->done.count += answer.microcycles.count;
    run->points.count += answer.steps.count;
    run->at_fetch_point = answer.steps.count == 1;
    show_progress(&run->progress, run->done);
    return true;
}

bool run_was_good(const struct run *run, struct complaint *complaint)
{
    return run->refused.number == AVM_DONE ||
           complain(complaint, PROGRAM_REFUSED, NULL, 0, "the library refused microcycle %llu: %s (number %u)",
                    (unsigned long long)run->done.count + 1, meaning(run->refused.number), (unsigned)run->refused.number);
}

const char *tell_step(struct step step, char room[STEP_ROOM])
{
    if (step.interrupt)
        snprintf(room, STEP_ROOM, "interrupt step");
    else
        snprintf(room, STEP_ROOM, "%s at %lu", mnemonic(step.opcode), (unsigned long)step.address);
    return room;
}
