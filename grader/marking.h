/* Marking: a run beside an expected log. The mark rests on the fetch points alone. */
#ifndef GRADER_MARKING_H
#define GRADER_MARKING_H

#include "job.h"
#include "run.h"
#include "tally.h"

enum { SOME_WRONG = 1 }; /* the status of a run that is not marked right */

/* Marks the fetch points in a list, or beside the microcycles in two columns. Brief is without what is right. The status is ALL_RIGHT,
   SOME_WRONG, or that of the complaint. */
int mark_in_list(FILE *out, const struct job *job, bool brief, struct complaint *complaint);
int mark_in_columns(FILE *out, const struct job *job, bool brief, struct complaint *complaint);

/* Says what was judged and will be run. */
void print_judged(FILE *out, const struct job *job);

/* The marks on one clock: what the log expects, and how many marks there are so far. */
struct marks {
    struct expectation expected;
    struct tally tally;
};

void start_marks(struct marks *marks, const struct job *job, enum clock clock);

/* Marks a board by the log's next line; false where there is none. */
bool mark_board(struct marks *marks, const struct board *shown, bool *right);

#endif
