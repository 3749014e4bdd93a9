/* Random control stores: avm_check compared with the second simulator, and what acceptance promises compared with runs. */
#include "../simulator/walks.h"
#include "comparing.h"
#include "hand.h"
#include "stores.h"

#include <string.h>

/* What must come often: the answers in which a checker that is nearly right differs from a right one. */
enum occasion {
    SHORT, LONG, OF_64, CIRCLES_BESIDE, LEAVES_BESIDE,
    HIGHER_LEAVES_TOO, LOWER_LEAVES_BESIDE, CIRCLES_TOO, LEAVES_LATE,
    ELSEWHERE_AFTER_63, ELSEWHERE_AFTER_65, LOWER_BEFORE, MANY_STAND, CIRCLES_LATE,
    OCCASIONS
};

static const char *const occasion_names[OCCASIONS] = {
    "accepted with 4 or less",
    "accepted with more than 32",
    "accepted with 64",
    "accepted beside a word that leads to itself and that no walk reaches",
    "accepted beside a word that leaves and that no walk reaches",
    "refused with 17 where a walk reaches a higher word that leaves too",
    "refused with 17 where a lower word leaves that no walk reaches",
    "refused with 17 where a walk circles too",
    "refused with 17 where no walk reaches the word before microcycle 62",
    "refused with 18 where the lowest word after 63 microcycles is another one",
    "refused with 18 where the lowest word after 65 microcycles is another one",
    "refused with 18 where a walk stood on a lower word shortly before",
    "refused with 18 where walks stand on more than 32 words",
    "refused with 18 where no walk reaches one of the words before microcycle 62",
};

static uint64_t occasions[OCCASIONS];
static struct walks walks; /* of the drawn store */

static void note(enum occasion occasion, bool came)
{
    occasions[occasion] += came;
}

static void note_accepted(uint64_t length)
{
    bool circles = false, leaves = false;
    size_t word;

    for (word = 0; word < walks.words; word++)
        if (!walks.reached[word]) {
            circles |= walks.leads[word][word];
            leaves |= can_leave(&walks, word);
        }
    note(SHORT, length <= 4);
    note(LONG, length > 32);
    note(OF_64, length == 64);
    note(CIRCLES_BESIDE, circles);
    note(LEAVES_BESIDE, leaves);
}

static size_t first_reached(size_t word)
{
    size_t microcycles = 0;

    while (!walks.stands[microcycles][word])
        microcycles++;
    return microcycles;
}

static void note_leaving(uint64_t at)
{
    bool higher = false, lower = false;
    size_t word;

    for (word = 0; word < walks.words; word++)
        if (can_leave(&walks, word)) {
            higher |= word > at && walks.reached[word];
            lower |= word < at && !walks.reached[word];
        }
    note(HIGHER_LEAVES_TOO, higher);
    note(LOWER_LEAVES_BESIDE, lower);
    note(CIRCLES_TOO, can_circle(&walks));
    note(LEAVES_LATE, first_reached(at) == 62);
}

static size_t lowest(const bool *words)
{
    size_t word = 0;

    while (word < ADDRESSES && !words[word])
        word++;
    return word;
}

static size_t lowest_after_65(void)
{
    bool words[ADDRESSES] = {false};
    size_t word, next;

    for (word = 1; word < walks.words; word++)
        for (next = 1; next < walks.words; next++)
            words[next] |= walks.stands[64][word] && walks.leads[word][next];
    return lowest(words);
}

static void note_circling(uint64_t at)
{
    bool lower = false, late = false;
    size_t before, word, standing = 0;

    for (before = 60; before < 64; before++)
        lower |= lowest(walks.stands[before]) < at;
    for (word = 0; word < walks.words; word++) {
        standing += walks.stands[64][word];
        late |= walks.reached[word] && first_reached(word) >= 62;
    }
    note(ELSEWHERE_AFTER_63, lowest(walks.stands[63]) != at);
    note(ELSEWHERE_AFTER_65, lowest_after_65() != at);
    note(LOWER_BEFORE, lower);
    note(MANY_STAND, standing > 32);
    note(CIRCLES_LATE, late);
}

/* The second simulator's two ways agree, and the answer is noted. */
static void look_into(avm_answer answer)
{
    find_walks(&walks, drawn.program, drawn.words);
    switch (answer.number) {
    case AVM_DONE:
        expect(!can_circle(&walks) && longest_in_depth(&walks) == answer.microcycles.count, "the second simulator's two ways differ");
        note_accepted(answer.microcycles.count);
        break;
    case AVM_WALK_LEAVES:
        note_leaving(answer.at);
        break;
    case AVM_WALK_NOT_BACK:
        expect(can_circle(&walks), "the second simulator finds no circle in depth");
        note_circling(answer.at);
    }
}

static uint64_t store_case(struct dice *dice, enum side side)
{
    avm_answer want = compare_check(side);

    (void)dice;
    if (want.number != AVM_BAD_PROGRAM_LENGTH && want.number != AVM_BAD_MICROWORD)
        look_into(want);
    return 1;
}

/* An answer is often there with more than one in twenty, an occasion with more than one in two hundred. */
static void random_stores(void)
{
    static const size_t numbers[] = {AVM_DONE, AVM_BAD_PROGRAM_LENGTH, AVM_BAD_MICROWORD, AVM_WALK_LEAVES, AVM_WALK_NOT_BACK};
    uint64_t stores;
    size_t k;

    memset(occasions, 0, sizeof occasions);
    stores = compare_drawn(64, 60000, draw_store, store_case);
    if (!holds_so_far())
        return;
    for (k = 0; k < COUNT(numbers); k++)
        expect(times_seen(numbers[k]) > stores / 20, "only %llu stores were answered with %zu",
               (unsigned long long)times_seen(numbers[k]), numbers[k]);
    for (k = 0; k < OCCASIONS; k++)
        expect(occasions[k] > stores / 200, "only %llu stores were %s", (unsigned long long)occasions[k], occasion_names[k]);
    expect_compared(stores, 50000, "stores");
}

/* One microcycle with a drawn request; answers whether it returned to fetch. */
static bool run_one(struct dice *dice, const struct places *places)
{
    uint8_t request = (uint8_t)dice_below(dice, 4);
    struct places one = *places;
    avm_answer answer;

    one.requests = &request;
    one.bytes = 1;
    answer = call_run(&engine, &one);
    expect(answer.number == AVM_DONE, "a run of an accepted store answers %llu", (unsigned long long)answer.number);
    return answer.steps.count == 1;
}

/* From fetch to the next return; answers its microcycles. */
static uint64_t run_to_fetch(struct dice *dice, const struct places *places, uint64_t bound)
{
    uint64_t microcycles = 1;

    while (!run_one(dice, places) && microcycles <= bound)
        microcycles++;
    expect(microcycles <= bound, "a run is not back after %llu microcycles", (unsigned long long)bound);
    return microcycles;
}

/* One run as long as three walks can be: at least three returns. */
static void run_on(struct dice *dice, struct places places, uint64_t bound)
{
    avm_answer answer;
    size_t place;

    places.bytes = 3 * bound;
    for (place = 0; place < places.bytes; place++)
        places.requests[place] = (uint8_t)dice_below(dice, 4);
    answer = call_run(&engine, &places);
    expect(answer.number == AVM_DONE && answer.steps.count >= 3, "a run over %llu bytes answers %llu and %llu returns",
           (unsigned long long)places.bytes, (unsigned long long)answer.number, (unsigned long long)answer.steps.count);
}

/* Stores of which a run took as long as it may, by whether that is more than 32 microcycles. */
static uint64_t bounds_met[2];

static uint64_t accepted_case(struct dice *dice, enum side side)
{
    enum { RETURNS = 6 };
    struct places lent = lend_program(&drawn, side), mine;
    avm_answer answer = call_check(&engine, &lent);
    uint64_t bound = answer.microcycles.count, longest = 0;
    unsigned k;

    if (answer.number != AVM_DONE)
        return 0;
    draw_machine(dice, &drawn);
    mine = places_in(&drawn);
    for (k = 0; k < RETURNS; k++) {
        uint64_t microcycles = run_to_fetch(dice, &mine, bound);

        longest = microcycles > longest ? microcycles : longest;
    }
    run_on(dice, mine, bound);
    bounds_met[bound > 32] += longest == bound;
    return 1;
}

static void runs_of_accepted_stores(void)
{
    uint64_t stores;

    memset(bounds_met, 0, sizeof bounds_met);
    stores = compare_drawn(65, 20000, draw_store, accepted_case);
    if (!holds_so_far())
        return;
    expect(stores > rounds(5000), "only %llu stores were accepted", (unsigned long long)stores);
    expect(bounds_met[false] > stores / 10, "only %llu bounds up to 32 were met", (unsigned long long)bounds_met[false]);
    expect(bounds_met[true] > stores / 100, "only %llu bounds above 32 were met", (unsigned long long)bounds_met[true]);
    remark(" (%llu stores, of %llu the bound met)", (unsigned long long)stores,
           (unsigned long long)(bounds_met[false] + bounds_met[true]));
}

const struct test random_walk_tests[] = {
    {"random stores are checked as the second simulator checks them, and nothing is touched that is not lent", random_stores},
    {"runs of accepted stores never answer 8 and are back at fetch within the number, which some of them need", runs_of_accepted_stores},
    {NULL, NULL},
};
