#include "marking.h"

struct list {
    FILE *out;
    bool brief;
    struct run run;
    struct marks points;
};

/* A part of a mark. The remark says where the expected value comes from if the line does not give it. */
static void print_part(const struct list *list, size_t part, const char *remark)
{
    uint32_t wanted = part_value(&list->points.expected.board, part), shown = part_value(&list->run.board, part);
    char name[TOLD_ROOM], value[TOLD_ROOM], expected[2 * TOLD_ROOM];

    snprintf(expected, sizeof expected, "%s%s", told_value(part, wanted, value), remark);
    fprintf(list->out, "    %-17s  expected %-23s  shown ", told_name(part, name), expected);
    if (wanted == shown)
        fprintf(list->out, "%s\n", told_value(part, shown, value));
    else
        fprintf(list->out, "%-13s  differs\n", told_value(part, shown, value));
}

static void print_parts(struct list *list)
{
    struct expectation *expected = &list->points.expected;
    size_t part;

    while (next_named(expected, &part))
        print_part(list, part, "");
    for (part = 0; (part = next_difference(&expected->board, &list->run.board, FETCH_POINTS, part)) < PARTS; part++)
        if (!is_named(expected, part))
            print_part(list, part, " as before");
}

static void mark_point(struct list *list)
{
    char step[STEP_ROOM];
    bool right;

    if (!mark_board(&list->points, &list->run.board, &right) || (right && list->brief))
        return;
    hide_progress(&list->run.progress);
    fprintf(list->out, "fetch point %llu, after microcycle %llu, %s: %s\n", (unsigned long long)list->run.points.count,
            (unsigned long long)list->run.done.count, tell_step(list->run.step, step), right ? "right" : "wrong");
    print_parts(list);
}

/* Marks what the run did not come to, and says what the log did not. */
static void mark_ends(struct list *list)
{
    const unsigned long long points = list->run.points.count, done = list->run.done.count;
    struct tally *tally = &list->points.tally;

    while (tally->marked < tally->expected) {
        count_mark(tally, false);
        fprintf(list->out, "fetch point %llu: wrong, not reached: the run ended after %llu microcycle%s at fetch point %llu\n",
                (unsigned long long)tally->marked, done, plural(done), points);
    }
    if (points > tally->expected && !list->brief)
        fprintf(list->out, "not marked: fetch points from %llu to %llu, which the expected log does not have\n",
                (unsigned long long)tally->expected + 1, points);
}

int mark_in_list(FILE *out, const struct job *job, bool brief, struct complaint *complaint)
{
    static struct list list;
    char verdict[VERDICT_ROOM];

    list.out = out;
    list.brief = brief;
    start_run(&list.run, &job->program, &job->requests);
    start_marks(&list.points, job, FETCH_POINTS);
    if (!brief)
        print_judged(out, job);
    while (!ferror(out) && next_microcycle(&list.run))
        if (list.run.at_fetch_point)
            mark_point(&list);
    hide_progress(&list.run.progress);
    if (!run_was_good(&list.run, complaint))
        return complaint->status;
    mark_ends(&list);
    fprintf(out, "%s\n", tell_verdict(&list.points.tally, "fetch point", verdict));
    return list.points.tally.wrong == 0 ? ALL_RIGHT : SOME_WRONG;
}
