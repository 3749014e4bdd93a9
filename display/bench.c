#include "bench.h"

static uint8_t request_byte(const struct bench *bench)
{
    return bench->request ? AVM_REQUEST_INTERRUPT : 0;
}

/* A refused call has the count 0 on both clocks, so each answer can be added. */
static bool take(struct bench *bench, avm_answer answer)
{
    bench->answer = answer;
    bench->microcycles.count += answer.microcycles.count;
    bench->steps.count += answer.steps.count;
    return answer.number == AVM_DONE;
}

static bool advance(struct bench *bench)
{
    return take(bench, avm_board_microcycle(&bench->now.board, bench->program.words, words_lent(&bench->program), bench->now.memory,
                                            bench->m, request_byte(bench)));
}

bool do_microcycle(struct bench *bench)
{
    bench->before = bench->now;
    return advance(bench);
}

bool do_step(struct bench *bench)
{
    bench->before = bench->now;
    return take(bench, avm_board_instruction(&bench->now.board, bench->now.memory, bench->m, request_byte(bench)));
}

bool run_to_fetch(struct bench *bench, unsigned *done)
{
    bench->before = bench->now;
    for (*done = 0; *done < AVM_WALK_MOST;) {
        if (!advance(bench))
            return false;
        ++*done;
        if (bench->now.board.mpc == AVM_FETCH)
            break;
    }
    return true;
}
