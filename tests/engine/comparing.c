#include "comparing.h"

#include <string.h>

#include "drawing.h"
#include "hand.h"

struct inputs drawn, own;

enum { INTERRUPT_STEP = OP_CODES, STEP_KINDS };

static struct {
    uint64_t answers[AVM_WALK_NOT_BACK + 1]; /* by number */
    uint64_t steps[2][STEP_KINDS];           /* by sm and opcode */
    uint64_t requests_in_vain;               /* with ie clear */
} seen;

uint64_t compare_drawn(uint64_t seed, uint64_t cases, one_draw *draw, one_case *compare)
{
    uint64_t number, compared = 0;

    memset(&seen, 0, sizeof seen);
    for (number = 0; number < rounds(cases) && holds_so_far(); number++) {
        struct dice dice = dice_for(seed, number);

        stand_at(seed, number);
        draw(&dice, &drawn);
        compared += compare(&dice, number % 2 == 0 ? AT_END : AT_START);
    }
    return compared;
}

uint64_t compare_cases(uint64_t seed, uint64_t cases, one_case *compare)
{
    return compare_drawn(seed, cases, draw_inputs, compare);
}

struct both lend_both(enum side side)
{
    struct both both;

    own = drawn;
    both.mine = places_in(&own);
    both.lent = lend(&drawn, side);
    return both;
}

void compare_answers(avm_answer got, avm_answer want)
{
    expect_same_answer("engine", got, want);
    if (want.number < COUNT(seen.answers))
        seen.answers[want.number]++;
}

avm_answer compare_call(one_call *call, enum side side)
{
    struct both both = lend_both(side);
    avm_answer want = call(&simulator, &both.mine);

    compare_answers(call(&engine, &both.lent), want);
    expect_same_places("engine", &both.lent, &both.mine);
    expect_nothing_beyond("engine");
    return want;
}

avm_answer compare_check(enum side side)
{
    struct places lent = lend_program(&drawn, side), mine = places_in(&drawn);
    avm_answer want = call_check(&simulator, &mine);

    compare_answers(call_check(&engine, &lent), want);
    return want;
}

avm_answer compare_next(one_request_call *call, const struct both *both, uint8_t request)
{
    avm_answer want = call(&simulator, &both->mine, request);

    compare_answers(call(&engine, &both->lent, request), want);
    expect_same_places("engine", &both->lent, &both->mine);
    return want;
}

avm_answer compare_read(const struct lent_image *image, enum side side)
{
    static uint32_t memory_after[MEMORY_ROOM];
    struct image_places lent = lend_to_read(image, side);
    avm_answer want;

    memcpy(memory_after, image->memory, image->m * sizeof memory_after[0]);
    want = simulator.read(memory_after, image->m, image->text, image->bytes);
    compare_answers(call_read(&engine, &lent), want);
    expect_same_words("engine", "memory", lent.memory, memory_after, lent.m);
    expect_nothing_beyond_read("engine");
    return want;
}

avm_answer compare_write(const struct lent_image *image, enum side side)
{
    static uint8_t room_after[TEXT_ROOM];
    struct image_places lent = lend_to_write(image, side);
    avm_answer want;

    memcpy(room_after, image->text, image->bytes);
    want = simulator.write(image->memory, image->m, room_after, image->bytes);
    compare_answers(call_write(&engine, &lent), want);
    expect_same_text("engine", lent.text, room_after, image->bytes);
    expect_nothing_beyond_written("engine");
    return want;
}

void expect_seen(size_t lowest, size_t highest)
{
    size_t number;

    for (number = lowest; number <= highest; number++)
        expect(seen.answers[number] > 0 || !holds_so_far(), "no case was answered with %zu", number);
}

uint64_t times_seen(size_t number)
{
    return seen.answers[number];
}

void expect_compared(uint64_t compared, uint64_t least, const char *what)
{
    expect(compared >= rounds(least) || !holds_so_far(), "only %llu %s were compared", (unsigned long long)compared, what);
    remark(" (%llu %s)", (unsigned long long)compared, what);
}

void note_step(uint32_t psw, uint32_t word, bool request)
{
    bool sm = psw & SM, ie = psw & IE;

    seen.steps[sm][request && ie ? INTERRUPT_STEP : word >> 26 & 31]++;
    seen.requests_in_vain += request && !ie;
}

void step_alone(const struct places *mine, uint8_t request)
{
    struct places one = *mine;

    note_step(mine->state[AVM_PSW], mine->memory[mine->state[AVM_PC] % mine->m], request);
    one.requests = &request;
    one.bytes = 1;
    expect_same_answer("second simulator", call_steps(&simulator, &one), done(0, 1));
}

void expect_every_step_seen(void)
{
    unsigned sm, kind;

    for (sm = 0; sm <= 1; sm++)
        for (kind = 0; kind < STEP_KINDS; kind++)
            expect(seen.steps[sm][kind] > 0 || !holds_so_far(), "no step was of kind %u with sm %u", kind, sm);
    expect(seen.requests_in_vain > 0 || !holds_so_far(), "no request came with ie clear");
}
