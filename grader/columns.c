#include "marking.h"

/* Two columns of at most 100 characters in all: on the left the time and what differs in a microcycle, on the right the marks. */
enum { TIME_WIDTH = 10, PART_WIDTH = 36, LEFT_WIDTH = TIME_WIDTH + 2 + PART_WIDTH, CELL_ROOM = 80 };

struct columns {
    FILE *out;
    bool brief;
    struct run run;
    struct marks microcycles, points;
    char time[CELL_ROOM], mark[2 * CELL_ROOM]; /* that the next row has to show */
};

/* Prints a row: the time and the mark if they have not been shown yet, and what it is given for the left. */
static void print_row(struct columns *columns, const char *left)
{
    hide_progress(&columns->run.progress);
    fprintf(columns->out, "%*s  %-*s |%s%s\n", TIME_WIDTH, columns->time, PART_WIDTH, left, columns->mark[0] == '\0' ? "" : " ",
            columns->mark);
    columns->time[0] = columns->mark[0] = '\0';
}

/* The parts in which the board is not as expected, each in a row, in the column of their clock. */
static void print_parts(struct columns *columns, const struct marks *marks)
{
    const struct board *expected = &marks->expected.board, *shown = &columns->run.board;
    enum clock clock = marks->expected.clock;
    char name[TOLD_ROOM], wanted[TOLD_ROOM], value[TOLD_ROOM], cell[CELL_ROOM];
    size_t part;

    for (part = 0; (part = next_difference(expected, shown, clock, part)) < PARTS; part++) {
        snprintf(cell, sizeof cell, "%-6s  %-13s  %s", log_name(part, name), told_value(part, part_value(expected, part), wanted),
                 told_value(part, part_value(shown, part), value));
        if (clock == FETCH_POINTS)
            snprintf(columns->mark, sizeof columns->mark, "%9s%s", "", cell);
        print_row(columns, clock == FETCH_POINTS ? "" : cell);
    }
}

static void tell_mark(struct columns *columns, uint64_t point, const char *step, bool right)
{
    if (!right || !columns->brief)
        snprintf(columns->mark, sizeof columns->mark, "%7llu  %-14s  %s", (unsigned long long)point, step, right ? "right" : "wrong");
}

static void mark_microcycle(struct columns *columns)
{
    bool microcycle_right = true, point_right = true;
    char step[STEP_ROOM];

    mark_board(&columns->microcycles, &columns->run.board, &microcycle_right);
    if (columns->run.at_fetch_point && mark_board(&columns->points, &columns->run.board, &point_right))
        tell_mark(columns, columns->run.points.count, tell_step(columns->run.step, step), point_right);
    snprintf(columns->time, sizeof columns->time, "%llu", (unsigned long long)columns->run.done.count);
    if (!microcycle_right)
        print_parts(columns, &columns->microcycles);
    if (columns->mark[0] != '\0')
        print_row(columns, "");
    if (!point_right)
        print_parts(columns, &columns->points);
}

static void mark_missing_microcycles(struct columns *columns)
{
    struct tally *tally = &columns->microcycles.tally;
    char cell[CELL_ROOM];

    if (tally->marked == tally->expected)
        return;
    snprintf(cell, sizeof cell, "from %llu to %llu: not reached", (unsigned long long)tally->marked + 1,
             (unsigned long long)tally->expected);
    print_row(columns, cell);
    while (tally->marked < tally->expected)
        count_mark(tally, false);
}

/* Marks the points that the run did not come to, and says which the log does not have. */
static void mark_other_points(struct columns *columns)
{
    const unsigned long long points = columns->run.points.count;
    struct tally *tally = &columns->points.tally;

    while (tally->marked < tally->expected) {
        count_mark(tally, false);
        tell_mark(columns, tally->marked, "not reached", false);
        print_row(columns, "");
    }
    if (points > tally->expected && !columns->brief) {
        snprintf(columns->mark, sizeof columns->mark, "from %llu to %llu: not in the log", (unsigned long long)tally->expected + 1,
                 points);
        print_row(columns, "");
    }
}

static void print_headings(struct columns *columns)
{
    fprintf(columns->out, "%-*s | %s\n", LEFT_WIDTH, "microcycle by microcycle", "at fetch points");
    fprintf(columns->out, "%*s  %-*s | %7s  %-14s  %s\n", TIME_WIDTH, "microcycle", PART_WIDTH,
            "part    expected       shown", "point", "step", "mark");
}

static void print_verdicts(struct columns *columns)
{
    char left[VERDICT_ROOM] = "no lines to compare with", right[VERDICT_ROOM];

    if (columns->microcycles.tally.expected > 0)
        tell_narrow_verdict(&columns->microcycles.tally, "microcycle", left);
    fprintf(columns->out, "%-*s | %s\n", LEFT_WIDTH, left, tell_narrow_verdict(&columns->points.tally, "fetch point", right));
}

int mark_in_columns(FILE *out, const struct job *job, bool brief, struct complaint *complaint)
{
    static struct columns columns;

    columns.out = out;
    columns.brief = brief;
    columns.mark[0] = '\0';
    start_run(&columns.run, &job->program, &job->requests);
    start_marks(&columns.microcycles, job, MICROCYCLES);
    start_marks(&columns.points, job, FETCH_POINTS);
    if (!brief)
        print_judged(out, job);
    print_headings(&columns);
    while (!ferror(out) && next_microcycle(&columns.run))
        mark_microcycle(&columns);
    hide_progress(&columns.run.progress);
    if (!run_was_good(&columns.run, complaint))
        return complaint->status;
    columns.time[0] = '\0';
    mark_missing_microcycles(&columns);
    mark_other_points(&columns);
    print_verdicts(&columns);
    return columns.points.tally.wrong == 0 ? ALL_RIGHT : SOME_WRONG;
}
