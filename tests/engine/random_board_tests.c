/* Random microcycles and steps of a board: compared with the second simulator's, call by call, and with one run over the same requests. */
#include "comparing.h"
#include "drawing.h"
#include "hand.h"

/* A request below the bound, or now and then one that is not far above it, or any byte. */
static uint8_t draw_request(struct dice *dice, size_t bound)
{
    if (dice_chance(dice, 95))
        return (uint8_t)dice_below(dice, bound);
    return (uint8_t)(dice_chance(dice, 50) ? bound + dice_below(dice, 2) : dice_below(dice, 256));
}

/* The board has the drawn registers and state words. */
static struct both lend_board(enum side side)
{
    drawn.board = board_of(drawn.registers, drawn.state);
    return lend_both(side);
}

static uint64_t one_call_case(one_request_call *call, enum side side, uint8_t request)
{
    struct both both = lend_board(side);

    compare_next(call, &both, request);
    expect_nothing_beyond("engine");
    return 1;
}

/* Half of the cases are legal but for the request. */
static uint64_t microcycle_case(struct dice *dice, enum side side)
{
    if (dice_chance(dice, 50))
        draw_damage(dice, &drawn);
    return one_call_case(call_board_microcycle, side, draw_request(dice, 4));
}

static uint64_t instruction_case(struct dice *dice, enum side side)
{
    draw_steps(dice, &drawn);
    if (dice_chance(dice, 50))
        draw_step_damage(dice, &drawn);
    return one_call_case(call_board_instruction, side, draw_request(dice, 2));
}

static void random_microcycles(void)
{
    compare_cases(85, 1000, microcycle_case);
    expect_seen(AVM_DONE, AVM_BAD_MEMORY_LENGTH);
    expect_seen(AVM_REGISTER_0_NOT_ZERO, AVM_LEFT_PROGRAM);
}

static void random_instructions(void)
{
    compare_cases(76, 500, instruction_case);
    expect_seen(AVM_DONE, AVM_BAD_MEMORY_LENGTH);
    expect_seen(AVM_REGISTER_0_NOT_ZERO, AVM_REGISTER_0_NOT_ZERO);
    expect_seen(AVM_BAD_REQUEST, AVM_BAD_REQUEST);
}

static struct {
    uint64_t microcycles, steps;
} compared;

/* What a caller may change between two calls: a state word, with an MPC inside the program. */
static void change_board(struct dice *dice, const struct both *both)
{
    uint32_t value = draw_value(dice), inside = (uint32_t)dice_below(dice, drawn.words);

    switch (dice_below(dice, 6)) {
    case 0: both->lent.board->psw = both->mine.board->psw = value; break;
    case 1: both->lent.board->pc = both->mine.board->pc = value; break;
    case 2: both->lent.board->ir = both->mine.board->ir = value; break;
    case 3: both->lent.board->mar = both->mine.board->mar = value; break;
    case 4: both->lent.board->ivec = both->mine.board->ivec = value; break;
    default: both->lent.board->mpc = both->mine.board->mpc = inside; break;
    }
}

static avm_answer compare_microcycle(struct dice *dice, const struct both *both)
{
    avm_answer answer = compare_next(call_board_microcycle, both, draw_request(dice, 4));

    compared.microcycles += answer.microcycles.count;
    return answer;
}

static avm_answer compare_step(struct dice *dice, const struct both *both)
{
    uint8_t request = draw_request(dice, 2);
    avm_answer answer;

    if (request <= 1)
        note_step(both->mine.board->psw, both->mine.memory[both->mine.board->pc % both->mine.m], request);
    answer = compare_next(call_board_instruction, both, request);
    compared.steps += answer.steps.count;
    return answer;
}

/* Memory is small, since all of it is compared after every call. One in two runs the published microprogram. */
static void draw_for_sequence(struct dice *dice)
{
    drawn.m = (size_t)16 << dice_below(dice, 5);
    draw_steps(dice, &drawn);
    drawn.state[AVM_MPC] = (uint32_t)dice_below(dice, drawn.words);
    if (dice_chance(dice, 50))
        publish(&drawn);
}

/* A microword that leaves the program would be refused for ever, and a microprogram may stay on one word: a word changes now and then. */
static uint64_t sequence_case(struct dice *dice, enum side side)
{
    enum { CALLS = 1000 };
    unsigned call, of_steps = (unsigned)dice_below(dice, 36);
    struct both both;

    draw_for_sequence(dice);
    both = lend_board(side);
    for (call = 0; call < CALLS && holds_so_far(); call++) {
        avm_answer answer = (dice_chance(dice, of_steps) ? compare_step : compare_microcycle)(dice, &both);

        expect_nothing_beyond("engine");
        if (answer.number == AVM_LEFT_PROGRAM || dice_chance(dice, 5))
            change_board(dice, &both);
    }
    return call;
}

static void random_sequences(void)
{
    compared.microcycles = compared.steps = 0;
    compare_cases(130, 150, sequence_case);
    expect_seen(AVM_DONE, AVM_DONE);
    expect_seen(AVM_BAD_REQUEST, AVM_LEFT_PROGRAM);
    expect_every_step_seen();
    expect_compared(compared.microcycles, 100000, "microcycles");
    expect_compared(compared.steps, 20000, "steps");
    remark(" (%llu microcycles, %llu steps)", (unsigned long long)compared.microcycles, (unsigned long long)compared.steps);
}

/* A call of the engine for each request byte up to the first that is refused: what all of them answer together. */
static avm_answer call_for_each(one_request_call *call, const struct places *lent)
{
    avm_answer all = done(0, 0);
    size_t place;

    for (place = 0; place < lent->bytes && all.number == AVM_DONE; place++) {
        avm_answer one = call(&engine, lent, lent->requests[place]);

        all.number = one.number;
        all.microcycles.count += one.microcycles.count;
        all.steps.count += one.steps.count;
    }
    return all;
}

/* The same requests in one call on a copy that has registers and state apart. Without a request there is no call on the board. */
static avm_answer compare_with_one_call(one_call *of_all, one_request_call *of_one, enum side side)
{
    struct both both;
    avm_answer want = done(0, 0);

    if (drawn.bytes == 0)
        return want;
    both = lend_board(side);
    want = of_all(&engine, &both.mine);
    own.board = board_of(own.registers, own.state);
    compare_answers(call_for_each(of_one, &both.lent), want);
    expect_same_words("a board", "memory", both.lent.memory, own.memory, own.m);
    expect_same_board("a board", both.lent.board, &own.board);
    expect_nothing_beyond("a board");
    return want;
}

static uint64_t run_case(struct dice *dice, enum side side)
{
    (void)dice;
    return compare_with_one_call(call_run, call_board_microcycle, side).microcycles.count;
}

static uint64_t steps_case(struct dice *dice, enum side side)
{
    draw_steps(dice, &drawn);
    return compare_with_one_call(call_steps, call_board_instruction, side).steps.count;
}

static void microcycles_as_one_run(void)
{
    uint64_t microcycles = compare_cases(126, 120, run_case);

    expect_seen(AVM_DONE, AVM_DONE);
    expect_seen(AVM_LEFT_PROGRAM, AVM_LEFT_PROGRAM);
    expect_compared(microcycles, 100000, "microcycles");
}

static void instructions_as_one_call(void)
{
    expect_compared(compare_cases(136, 150, steps_case), 20000, "steps");
}

const struct test random_board_tests[] = {
    {"random microcycles of a board, legal and damaged, equal the second simulator's and leave everything alike", random_microcycles},
    {"random steps of a board, legal and damaged, equal the second simulator's and leave everything alike", random_instructions},
    {"random sequences of microcycles and steps on one board equal the second simulator's after every call", random_sequences},
    {"microcycles of a board end where one run over the same requests ends", microcycles_as_one_run},
    {"steps of a board end where one call of avm_steps over the same requests ends", instructions_as_one_call},
    {NULL, NULL},
};
