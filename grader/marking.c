#include "marking.h"

void print_judged(FILE *out, const struct job *job)
{
    const unsigned long long longest = job->program.longest.count, until = job->requests.until.count,
                             points = job->expected.points.count, microcycles = job->expected.microcycles.count;

    fprintf(out, "microprogram  %s: accepted: back at fetch within %llu microcycle%s\n", job->texts[MICROPROGRAM].name, longest,
            plural(longest));
    fprintf(out, "image         %s: read into %zu words of memory\n", job->texts[IMAGE].name, job->requests.start.m);
    fprintf(out, "requests      %s: %llu microcycle%s to run\n", job->texts[REQUESTS].name, until, plural(until));
    fprintf(out, "expected      %s: %llu fetch point%s, %llu microcycle%s\n\n", job->texts[EXPECTED].name, points, plural(points),
            microcycles, plural(microcycles));
}

void start_marks(struct marks *marks, const struct job *job, enum clock clock)
{
    start_expectation(&marks->expected, &job->expected, clock, &job->requests.start);
    marks->tally = start_tally(clock == MICROCYCLES ? job->expected.microcycles.count : job->expected.points.count);
}

bool mark_board(struct marks *marks, const struct board *shown, bool *right)
{
    if (!next_expectation(&marks->expected))
        return false;
    *right = boards_agree(&marks->expected.board, shown, marks->expected.clock);
    count_mark(&marks->tally, *right);
    return true;
}
