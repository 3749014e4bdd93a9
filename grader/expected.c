#include "expected.h"

#include <string.h>

static bool word_is_clock(struct word word, enum clock *clock)
{
    *clock = word_is(word, "microcycle") ? MICROCYCLES : FETCH_POINTS;
    return *clock == MICROCYCLES || word_is(word, "fetch");
}

/* Where a reader of an expected log stands. */
struct judging {
    struct cursor cursor;
    size_t m;
    struct complaint *complaint;
    uint32_t named_in[PARTS];
};

static bool judge_change(struct judging *judging, enum clock clock, struct word word)
{
    uint64_t value;
    size_t part;

    if (!part_named(word, clock, judging->m, &part))
        return unexpected(&judging->cursor, &word, judging->complaint, "pc, psw%s, r1 to r%d or m0 to m%zu",
                          clock == MICROCYCLES ? ", ir, mar, mbr, mpc, ireq" : "", AVM_REGISTERS - 1, judging->m - 1);
    if (judging->named_in[part] == judging->cursor.line)
        return unexpected(&judging->cursor, &word, judging->complaint, "each part once in a line");
    judging->named_in[part] = (uint32_t)judging->cursor.line;
    return take_number(&judging->cursor, "number", 0, part_most(part), &value, judging->complaint);
}

static bool judge_line(struct judging *judging, struct expected *expected)
{
    enum clock clock;
    struct word word;
    uint64_t *count, number;

    next_word(&judging->cursor, &word);
    if (!word_is_clock(word, &clock))
        return unexpected(&judging->cursor, &word, judging->complaint, "fetch or microcycle");
    count = clock == MICROCYCLES ? &expected->microcycles.count : &expected->points.count;
    ++*count;
    if (!take_number(&judging->cursor, clock == MICROCYCLES ? "microcycle" : "fetch point", *count, *count, &number, judging->complaint))
        return false;
    while (next_word(&judging->cursor, &word))
        if (!judge_change(judging, clock, word))
            return false;
    return true;
}

bool read_expected(const struct text *text, size_t m, struct expected *expected, struct complaint *complaint)
{
    struct judging judging;

    memset(&judging, 0, sizeof judging);
    judging.cursor = start_of(text);
    judging.m = m;
    judging.complaint = complaint;
    expected->text = text;
    expected->points.count = expected->microcycles.count = 0;
    while (next_line(&judging.cursor))
        if (!judge_line(&judging, expected))
            return false;
    return expected->points.count > 0 ||
           complain(complaint, BAD_FILE, text->name, judging.cursor.line, "expected a line 'fetch 1', found the end of the file");
}

void start_expectation(struct expectation *expectation, const struct expected *expected, enum clock clock, const struct board *start)
{
    memset(expectation, 0, sizeof *expectation);
    expectation->clock = clock;
    expectation->cursor = start_of(expected->text);
    expectation->board = *start;
}

bool next_named(struct expectation *expectation, size_t *part)
{
    struct word word, value;

    return next_word(&expectation->changes, &word) && next_word(&expectation->changes, &value) &&
           part_named(word, expectation->clock, expectation->board.m, part);
}

/* Makes the line's changes on the board. The log was judged before, so the line is of its form. */
static void expect_changes(struct expectation *expectation)
{
    struct cursor *cursor = &expectation->cursor;
    struct word word;
    uint64_t value;
    size_t part;

    while (next_word(cursor, &word) && part_named(word, expectation->clock, expectation->board.m, &part)) {
        next_word(cursor, &word);
        word_is_number(word, part_most(part), &value);
        set_part(&expectation->board, part, (uint32_t)value);
        expectation->named_in[part] = (uint32_t)cursor->line;
    }
}

bool next_expectation(struct expectation *expectation)
{
    enum clock clock;
    struct word word;

    while (next_line(&expectation->cursor)) {
        next_word(&expectation->cursor, &word);
        if (word_is_clock(word, &clock) && clock == expectation->clock) {
            next_word(&expectation->cursor, &word);
            expectation->changes = expectation->cursor;
            expect_changes(expectation);
            return true;
        }
    }
    return false;
}

bool is_named(const struct expectation *expectation, size_t part)
{
    return expectation->named_in[part] == expectation->cursor.line;
}
