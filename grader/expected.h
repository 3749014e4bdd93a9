/* Expected logs. A line names what changed, so the whole board is known at each fetch point, and at each microcycle that has a line. */
#ifndef GRADER_EXPECTED_H
#define GRADER_EXPECTED_H

#include "../common/text.h"
#include "board.h"

struct expected {
    const struct text *text;
    avm_instructions points;     /* lines with fetch */
    avm_microcycles microcycles; /* lines with microcycle */
};

/* Judges all of a log for a memory of m words. */
bool read_expected(const struct text *text, size_t m, struct expected *expected, struct complaint *complaint);

/* What a log expects on one clock, line after line. */
struct expectation {
    enum clock clock;
    struct cursor cursor;
    struct cursor changes;    /* before the parts of this line */
    struct board board;       /* as this line expects it */
    uint32_t named_in[PARTS]; /* the last line that named a part */
};

void start_expectation(struct expectation *expectation, const struct expected *expected, enum clock clock, const struct board *start);

/* To the next line of the clock; false where there is none. */
bool next_expectation(struct expectation *expectation);

/* The next part that this line names, in its order; false where there is none. */
bool next_named(struct expectation *expectation, size_t *part);

/* Does this line name the part? */
bool is_named(const struct expectation *expectation, size_t part);

#endif
