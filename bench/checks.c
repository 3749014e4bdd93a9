/* Checks a second of avm_check and of a plain C checker, on the same microprograms in the same process; see bench/README.md. */
#include <stdbool.h>
#include <stdio.h>

#include "plain_check.h"
#include "timing.h"

enum { STEP, JMP, JOP, JINT, JSM };
enum { CHECKS_A_SECOND = 20000 }; /* what avm_check has to do on one core */

static const double shortest_repetition = 0.01; /* seconds: long against what one reading of the clock costs */

typedef avm_answer checker(const uint64_t *program, size_t words);

static uint64_t word(unsigned cond, unsigned addr)
{
    return UINT64_C(0x742D800000) | cond << 6 | addr;
}

static void fill_published(uint64_t *program)
{
    unsigned k;

    for (k = 0; k < 64; k++)
        program[k] = avm_published(k);
}

/* 0, 1, .. 63 and back. */
static void fill_one_walk(uint64_t *program)
{
    unsigned k;

    for (k = 0; k < 64; k++)
        program[k] = word(STEP, 0);
}

/* After one microcycle walks stand on 4 to 35, and from the second on all words but fetch: 4 to 34 lead to 36 to 63 and to 1, 2 and 3 by
   their addresses, to 5 to 35 by going on, and jop to 4. */
static void fill_full(uint64_t *program)
{
    unsigned k;

    for (k = 0; k < 64; k++)
        program[k] = word(JOP, 0);
    for (k = 4; k <= 31; k++)
        program[k] = word(k % 2 == 0 ? JINT : JSM, k + 32);
    for (k = 32; k <= 34; k++)
        program[k] = word(JINT, k - 31);
}

/* Walks stand on 4 to 35 all the time, and each word has all of these as next addresses. */
static void fill_jop(uint64_t *program)
{
    unsigned k;

    for (k = 0; k < 64; k++)
        program[k] = word(JOP, 0);
}

static const struct row {
    const char *name;
    void (*fill)(uint64_t *program);
    avm_answer answer; /* what the row is made for */
} rows[] = {
    {"the published microprogram", fill_published, {AVM_DONE, 0, {7}, {0}}},
    {"one walk of 64", fill_one_walk, {AVM_DONE, 0, {64}, {0}}},
    {"63 words at once, 64 rounds", fill_full, {AVM_WALK_NOT_BACK, 1, {0}, {0}}},
    {"32 words at once, each to all 32", fill_jop, {AVM_WALK_NOT_BACK, 4, {0}, {0}}},
};

static bool same(avm_answer a, avm_answer b)
{
    return a.number == b.number && a.at == b.at && a.microcycles.count == b.microcycles.count && a.steps.count == b.steps.count;
}

/* Seconds for that many checks. Each answer is compared, so that none is left out. */
static double seconds(checker *check, const struct row *row, const uint64_t *program, unsigned long checks)
{
    double start = processor_seconds();
    unsigned long k, wrong = 0;

    for (k = 0; k < checks; k++)
        wrong += !same(check(program, 64), row->answer);
    if (wrong > 0)
        fail(row->name, "an answer changed while it was measured");
    return processor_seconds() - start;
}

/* As many as the faster one needs for a repetition that is long enough. */
static unsigned long enough_checks(const struct row *row, const uint64_t *program)
{
    unsigned long checks = 64;

    while (seconds(plain_check, row, program, checks) < shortest_repetition ||
           seconds(avm_check, row, program, checks) < shortest_repetition)
        checks *= 2;
    return checks;
}

/* Proved and plain in turn, so that what disturbs the machine for a while disturbs both. */
static void measure(const struct row *row, const uint64_t *program)
{
    double proved[REPETITIONS], plain[REPETITIONS], ratio[REPETITIONS], middle, rate;
    unsigned long checks = enough_checks(row, program);
    int k;

    for (k = 0; k < REPETITIONS; k++) {
        proved[k] = seconds(avm_check, row, program, checks);
        plain[k] = seconds(plain_check, row, program, checks);
        ratio[k] = proved[k] / plain[k];
    }
    middle = median(ratio, REPETITIONS);
    rate = (double)checks / median(proved, REPETITIONS);
    printf("%-34s %12.0f %12.0f %7.2f  (%.2f to %.2f)\n", row->name, rate, (double)checks / median(plain, REPETITIONS), middle, ratio[0],
           ratio[REPETITIONS - 1]);
    if (rate < CHECKS_A_SECOND)
        fail(row->name, "the proved checker is too slow");
}

static void compare(const struct row *row, const uint64_t *program)
{
    avm_answer proved = avm_check(program, 64), plain = plain_check(program, 64);

    if (!same(proved, plain))
        fail(row->name, "the proved checker and plain C answer differently");
    if (!same(proved, row->answer))
        fail(row->name, "both answer something else than the row is made for");
}

int main(void)
{
    uint64_t program[64];
    const struct row *row;

    printf("%-34s %12s %12s   proved's time / plain C's\n", "checks a second of 64 words", "proved", "plain C");
    for (row = rows; row < rows + sizeof rows / sizeof rows[0]; row++) {
        row->fill(program);
        compare(row, program);
        measure(row, program);
    }
    return 0;
}
