/* Tests, each named for the promise that it would break, and the numbers that random tests draw. */
#ifndef ENGINE_CHECK_H
#define ENGINE_CHECK_H

#include <stdbool.h>
#include <stddef.h>
#include <stdint.h>

#define COUNT(rows) (sizeof(rows) / sizeof(rows)[0])

struct test {
    const char *promise;
    void (*check)(void);
};

/* Runs the tests up to the one without a promise, a line each. A test that touches a guard page fails, and the next one goes on. */
void run_tests(const struct test *tests);

/* Prints 'N passed, M failed' and gives the program's status. */
int report(void);

/* From now on the first test that fails is the last one: the program ends there, with its report. */
void stop_at_failure(void);

/* What a test says while it runs: a fact that must hold, with the words to print where it does not, and a remark for its line. */
void expect(bool holds, const char *format, ...) __attribute__((format(printf, 2, 3)));
void remark(const char *format, ...) __attribute__((format(printf, 1, 2)));
bool holds_so_far(void);

/* Names the case that stands, for the message of a test that fails in it: a random one, or a row of a table, from 0. */
void stand_at(uint64_t seed, uint64_t number);
void stand_at_row(size_t row);

/* The number times SCHOONLEECH_ROUNDS, which is 1 unless it is set, and may be a fraction such as 1/4. */
uint64_t rounds(uint64_t number);

/* Drawn numbers: splitmix64, from a seed and a case's number, so that a case does not depend on those before it. */
struct dice {
    uint64_t state;
};

struct dice dice_for(uint64_t seed, uint64_t number);
uint64_t dice_next(struct dice *dice);
size_t dice_below(struct dice *dice, size_t bound);
bool dice_chance(struct dice *dice, unsigned percent);

#endif
