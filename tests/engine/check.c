#define _POSIX_C_SOURCE 200809L

#include "check.h"

#include <setjmp.h>
#include <signal.h>
#include <stdarg.h>
#include <stdio.h>
#include <stdlib.h>
#include <string.h>

enum { MESSAGES_MOST = 4 };

static unsigned passed, failed; /* tests */
static unsigned broken;         /* facts that did not hold in the test that runs */
static bool stops_at_failure;
static char standing[80];
static char remarked[120];
static sigjmp_buf before_test;

void expect(bool holds, const char *format, ...)
{
    va_list words;

    if (holds || broken++ >= MESSAGES_MOST)
        return;
    printf("    ");
    va_start(words, format);
    vprintf(format, words);
    va_end(words);
    printf("%s\n", standing);
}

void remark(const char *format, ...)
{
    va_list words;

    va_start(words, format);
    vsnprintf(remarked, sizeof remarked, format, words);
    va_end(words);
}

bool holds_so_far(void)
{
    return broken == 0;
}

void stand_at(uint64_t seed, uint64_t number)
{
    snprintf(standing, sizeof standing, " (seed %llu, case %llu)", (unsigned long long)seed, (unsigned long long)number);
}

void stand_at_row(size_t row)
{
    snprintf(standing, sizeof standing, " (row %zu)", row);
}

static void touched_a_guard_page(int number)
{
    siglongjmp(before_test, number);
}

static void catch_faults(void)
{
    struct sigaction action;

    memset(&action, 0, sizeof action);
    action.sa_handler = touched_a_guard_page;
    sigemptyset(&action.sa_mask);
    sigaction(SIGSEGV, &action, NULL);
    sigaction(SIGBUS, &action, NULL);
}

static void run_test(const struct test *test)
{
    int fault;

    broken = 0;
    standing[0] = remarked[0] = '\0';
    fault = sigsetjmp(before_test, 1);
    if (fault == 0)
        test->check();
    else
        expect(false, "signal %d: a place that was not lent was touched, or one that is only read was written", fault);
    printf("%s  %s%s\n", broken == 0 ? "passed" : "FAILED", test->promise, remarked);
    fflush(stdout);
    if (broken == 0)
        passed++;
    else
        failed++;
    if (failed > 0 && stops_at_failure)
        exit(report());
}

void run_tests(const struct test *tests)
{
    catch_faults();
    for (; tests->promise != NULL; tests++)
        run_test(tests);
}

int report(void)
{
    printf("%u passed, %u failed\n", passed, failed);
    return failed == 0 ? 0 : 1;
}

void stop_at_failure(void)
{
    stops_at_failure = true;
}

uint64_t rounds(uint64_t number)
{
    const char *told = getenv("SCHOONLEECH_ROUNDS");
    uint64_t times, part;
    char *rest;

    if (told == NULL || *told == '\0')
        return number;
    times = strtoull(told, &rest, 10);
    part = *rest == '/' ? strtoull(rest + 1, NULL, 10) : 1;
    return number * times / (part > 0 ? part : 1);
}

uint64_t dice_next(struct dice *dice)
{
    uint64_t mixed = dice->state += 0x9E3779B97F4A7C15u;

    mixed = (mixed ^ mixed >> 30) * 0xBF58476D1CE4E5B9u;
    mixed = (mixed ^ mixed >> 27) * 0x94D049BB133111EBu;
    return mixed ^ mixed >> 31;
}

struct dice dice_for(uint64_t seed, uint64_t number)
{
    struct dice dice = {seed};

    dice.state = dice_next(&dice) + number;
    dice.state = dice_next(&dice);
    return dice;
}

size_t dice_below(struct dice *dice, size_t bound)
{
    return (size_t)(dice_next(dice) % bound);
}

bool dice_chance(struct dice *dice, unsigned percent)
{
    return dice_below(dice, 100) < percent;
}
