/* How many marks there are on a clock and how many of them are wrong. */
#ifndef GRADER_TALLY_H
#define GRADER_TALLY_H

#include <stdbool.h>
#include <stddef.h>
#include <stdint.h>

struct tally {
    uint64_t expected; /* lines of the log */
    uint64_t marked;
    uint64_t wrong;
    uint64_t first_wrong; /* 0 as long as there is none */
};

struct tally start_tally(uint64_t expected);

/* Counts the next mark. */
void count_mark(struct tally *tally, bool right);

/* What a noun ends with after a number. */
const char *plural(uint64_t number);

enum { VERDICT_ROOM = 140 };

/* The verdict in one line. The name is that of one line's moment, such as "fetch point". A narrow verdict fits into a column. */
const char *tell_verdict(const struct tally *tally, const char *name, char room[VERDICT_ROOM]);
const char *tell_narrow_verdict(const struct tally *tally, const char *name, char room[VERDICT_ROOM]);

#endif
