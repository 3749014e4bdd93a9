#include "returns.h"

#include "hand.h"

/* A run of the published microprogram from fetch, as far as it has come: the microcycles up to the last return, and for each return the
   request that stood at its fetch. */
struct walk {
    size_t microcycles, returns;
    uint8_t at_fetch[REQUESTS_ROOM];
};

/* The microprogram's own words of the state. */
static const unsigned not_shown[] = {AVM_IR, AVM_MAR, AVM_MBR, AVM_MPC};

/* Expects what steps show: memory, registers, PSW, PC and IVEC. */
static void expect_same_step(const char *who, const struct places *lent, const struct places *mine)
{
    size_t k;

    for (k = 0; k < COUNT(not_shown); k++)
        mine->state[not_shown[k]] = lent->state[not_shown[k]];
    expect_same_places(who, lent, mine);
}

/* One microcycle of the engine; answers whether it returned to fetch. */
static bool run_one(const struct places *lent, size_t place)
{
    struct places one = *lent;
    avm_answer answer;

    one.requests = lent->requests + place;
    one.bytes = 1;
    answer = call_run(&engine, &one);
    expect(answer.number == AVM_DONE, "a microcycle of the published microprogram answers %llu", (unsigned long long)answer.number);
    expect((lent->state[AVM_MPC] == AVM_FETCH) == (answer.steps.count == 1), "a return is not counted, or is counted elsewhere");
    return answer.steps.count == 1;
}

/* Runs the drawn bytes microcycle by microcycle. At each return the second simulator does the step that the request at fetch chose. */
static void walk_by_microcycles(const struct both *both, struct walk *walk)
{
    enum { LONGEST = 7 };
    size_t place, since_return = 0;

    walk->microcycles = walk->returns = 0;
    for (place = 0; place < drawn.bytes && holds_so_far(); place++) {
        if (since_return == 0)
            walk->at_fetch[walk->returns] = drawn.requests[place] & 1;
        since_return++;
        if (run_one(&both->lent, place)) {
            step_alone(&both->mine, walk->at_fetch[walk->returns++]);
            expect_same_step("a return", &both->lent, &both->mine);
            walk->microcycles = place + 1;
            since_return = 0;
        }
        expect(since_return < LONGEST, "no return after %u microcycles", (unsigned)since_return);
    }
}

/* The walk again in one call of avm_run, and its steps in one call of avm_steps. */
static void expect_the_same_in_one_call(const struct walk *walk, enum side side)
{
    struct places lent = lend(&drawn, side), mine = places_in(&own);
    size_t k;

    lent.bytes = walk->microcycles;
    expect_same_answer("one run", call_run(&engine, &lent), done(walk->microcycles, walk->returns));
    expect_same_step("one run", &lent, &mine);
    lent = lend(&drawn, side);
    lent.requests = (uint8_t *)walk->at_fetch;
    lent.bytes = walk->returns;
    expect_same_answer("engine", call_steps(&engine, &lent), done(0, walk->returns));
    for (k = 0; k < COUNT(not_shown); k++)
        expect(lent.state[not_shown[k]] == drawn.state[not_shown[k]], "avm_steps changed state word %u", not_shown[k]);
    expect_same_step("engine", &lent, &mine);
}

uint64_t compare_returns(enum side side)
{
    static struct walk walk;
    struct both both;

    publish(&drawn);
    both = lend_both(side);
    own.state[AVM_PSW] &= 0x3F;
    walk_by_microcycles(&both, &walk);
    expect_the_same_in_one_call(&walk, side);
    return walk.returns;
}
