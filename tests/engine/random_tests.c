/* Random runs and phase calls, compared with the second simulator's. */
#include "comparing.h"
#include "drawing.h"
#include "hand.h"

static uint64_t run_case(struct dice *dice, enum side side)
{
    (void)dice;
    return compare_call(call_run, side).microcycles.count;
}

static void random_runs(void)
{
    uint64_t microcycles = compare_cases(1990, 700, run_case);

    expect_seen(AVM_DONE, AVM_DONE);
    expect_seen(AVM_LEFT_PROGRAM, AVM_LEFT_PROGRAM);
    expect_compared(microcycles, 1000000, "microcycles");
}

static uint64_t damaged_run_case(struct dice *dice, enum side side)
{
    draw_damage(dice, &drawn);
    return run_case(dice, side);
}

static void random_damaged_runs(void)
{
    compare_cases(5, 2000, damaged_run_case);
    expect_seen(AVM_DONE, AVM_LEFT_PROGRAM);
}

/* One of the words that a caller may change between two phase calls. */
struct change {
    size_t which;
    uint32_t value;
    uint64_t microword;
};

enum { CHANGES = AVM_STATE + AVM_LATCHES + 2 };

static void apply(const struct change *change, const struct places *places)
{
    size_t which = change->which;

    if (which == AVM_MPC)
        places->state[AVM_MPC] = change->value % (uint32_t)places->words;
    else if (which < AVM_STATE)
        places->state[which] = change->value;
    else if (which < AVM_STATE + AVM_LATCHES)
        places->latches[which - AVM_STATE] = change->value;
    else if (which == AVM_STATE + AVM_LATCHES)
        *places->mir = change->microword;
    else
        *places->phase = change->value % 4;
}

static void change_both(struct dice *dice, const struct both *both)
{
    struct change change;

    change.which = dice_below(dice, CHANGES);
    change.value = draw_value(dice);
    change.microword = draw_microword(dice, 0, 64, false);
    apply(&change, &both->lent);
    apply(&change, &both->mine);
}

static uint64_t phases_case(struct dice *dice, enum side side)
{
    enum { CALLS = 1000 };
    struct both both = lend_both(side);
    unsigned call;

    for (call = 0; call < CALLS && holds_so_far(); call++) {
        if (dice_chance(dice, 5))
            change_both(dice, &both);
        /* a microword that leaves would be refused for ever */
        if (compare_next(call_phase, &both, (uint8_t)dice_below(dice, 4)).number == AVM_LEFT_PROGRAM)
            *both.lent.mir = *both.mine.mir = pack(idle());
    }
    expect_nothing_beyond("engine");
    return call;
}

static void random_phases(void)
{
    uint64_t calls = compare_cases(110, 200, phases_case);

    expect_seen(AVM_DONE, AVM_DONE);
    expect_seen(AVM_LEFT_PROGRAM, AVM_LEFT_PROGRAM);
    remark(" (%llu calls)", (unsigned long long)calls);
}

static uint64_t damaged_phase_case(struct dice *dice, enum side side)
{
    struct both both;

    draw_damage(dice, &drawn);
    both = lend_both(side);
    compare_next(call_phase, &both, (uint8_t)(dice_chance(dice, 20) ? dice_below(dice, 256) : dice_below(dice, 4)));
    expect_nothing_beyond("engine");
    return 1;
}

static void random_damaged_phases(void)
{
    compare_cases(114, 3000, damaged_phase_case);
    expect_seen(AVM_DONE, AVM_LEFT_PROGRAM);
}

/* What four phase calls leave where the fourth is refused with 8: the three before it stay done, so MAR may have come from PC, and the PSW's
   other bits are gone. */
static void expect_three_phases(const struct places *lent)
{
    struct microword word = microword_fields(drawn.program[drawn.state[AVM_MPC]]);
    struct places wanted;

    own = drawn;
    if (word.mar && word.pmux)
        own.state[AVM_MAR] = own.state[AVM_PC];
    own.state[AVM_PSW] &= 0x3F;
    wanted = places_in(&own);
    wanted.latches = lent->latches;
    wanted.mir = lent->mir;
    wanted.phase = lent->phase;
    expect_same_places("four phase calls", lent, &wanted);
    expect(*lent->phase == 3, "phase is %u after 8", (unsigned)*lent->phase);
}

/* The request byte of the first phase is the run's; those of the others are free. */
static void compare_microcycle(struct dice *dice, enum side side)
{
    struct both both = lend_both(side);
    avm_answer of_run = call_run(&engine, &both.mine), of_phase;
    unsigned phase;

    for (phase = 0; phase < 4; phase++) {
        of_phase = call_phase(&engine, &both.lent, phase == 0 ? drawn.requests[0] : (uint8_t)dice_below(dice, 4));
        expect(phase == 3 || of_phase.number == AVM_DONE, "phase %u answers %llu", phase, (unsigned long long)of_phase.number);
    }
    expect_same_answer("the fourth phase call", of_phase, refused(of_run.number, 0));
    if (of_run.number == AVM_DONE) {
        both.mine.latches = both.lent.latches;
        both.mine.mir = both.lent.mir;
        expect_same_places("four phase calls", &both.lent, &both.mine);
    } else {
        expect_three_phases(&both.lent);
    }
}

static uint64_t microcycle_case(struct dice *dice, enum side side)
{
    drawn.phase = 0;
    drawn.bytes = 1;
    drawn.requests[0] = (uint8_t)dice_below(dice, 4);
    compare_microcycle(dice, side);
    return 1;
}

static void four_phases_are_a_microcycle(void)
{
    compare_cases(137, 3000, microcycle_case);
}

const struct test random_tests[] = {
    {"random runs equal the second simulator's and touch nothing that is not lent", random_runs},
    {"random damaged runs are refused alike and leave everything alike", random_damaged_runs},
    {"random sequences of phase calls equal the second simulator's after every call", random_phases},
    {"random damaged phase calls are refused alike and leave everything alike", random_damaged_phases},
    {"four phase calls do what one byte of a run does", four_phases_are_a_microcycle},
    {NULL, NULL},
};
