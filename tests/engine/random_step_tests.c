/* Random instruction steps, compared with the second simulator's, and the published microprogram's returns compared with them. */
#include "comparing.h"
#include "drawing.h"
#include "hand.h"
#include "returns.h"

/* All steps in one call of the engine, and step by step in the second simulator. */
static uint64_t steps_case(struct dice *dice, enum side side)
{
    struct both both;
    size_t place;

    draw_steps(dice, &drawn);
    both = lend_both(side);
    own.state[AVM_PSW] &= 0x3F;
    for (place = 0; place < drawn.bytes; place++)
        step_alone(&both.mine, drawn.requests[place]);
    compare_answers(call_steps(&engine, &both.lent), done(0, drawn.bytes));
    expect_same_places("engine", &both.lent, &both.mine);
    expect_nothing_beyond("engine");
    return drawn.bytes;
}

static void random_steps(void)
{
    uint64_t steps = compare_cases(68, 600, steps_case);

    expect_every_step_seen();
    expect_compared(steps, 100000, "steps");
}

static uint64_t damaged_steps_case(struct dice *dice, enum side side)
{
    draw_steps(dice, &drawn);
    draw_step_damage(dice, &drawn);
    compare_call(call_steps, side);
    return 1;
}

static void random_damaged_steps(void)
{
    compare_cases(74, 1000, damaged_steps_case);
    expect_seen(AVM_DONE, AVM_REGISTER_0_NOT_ZERO);
    expect_seen(AVM_BAD_REQUEST, AVM_BAD_REQUEST);
}

static uint64_t returns_case(struct dice *dice, enum side side)
{
    size_t place;

    draw_steps(dice, &drawn);
    for (place = 0; place < drawn.bytes; place++)
        drawn.requests[place] |= (uint8_t)(dice_below(dice, 2) * 2);
    return compare_returns(side);
}

static void returns_are_steps(void)
{
    uint64_t returns = compare_cases(160, 700, returns_case);

    expect_every_step_seen();
    remark(" (%llu returns)", (unsigned long long)returns);
}

const struct test random_step_tests[] = {
    {"random steps equal the second simulator's and touch nothing that is not lent", random_steps},
    {"random damaged steps are refused alike and leave everything alike", random_damaged_steps},
    {"each return of the published microprogram shows the step that the request at fetch chose", returns_are_steps},
    {NULL, NULL},
};
