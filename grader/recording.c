#include "recording.h"

#include "run.h"

enum { COMMENT_COLUMN = 48 };

/* Prints what changed since the line before, and makes it the state of that line. It returns the number of characters. */
static int record_line(FILE *out, enum clock clock, uint64_t number, struct board *last, const struct board *now)
{
    int width = fprintf(out, "%s %llu", clock == MICROCYCLES ? "microcycle" : "fetch", (unsigned long long)number);
    char part_name[TOLD_ROOM], value[TOLD_ROOM];
    size_t part;

    for (part = 0; (part = next_difference(last, now, clock, part)) < PARTS; part++) {
        set_part(last, part, part_value(now, part));
        width += fprintf(out, " %s %s", log_name(part, part_name), log_value(part, part_value(now, part), value));
    }
    return width;
}

static void record_microcycle(FILE *out, const struct run *run, struct board *last)
{
    record_line(out, MICROCYCLES, run->done.count, last, &run->board);
    fputc('\n', out);
}

static void record_point(FILE *out, const struct run *run, struct board *last)
{
    int width = record_line(out, FETCH_POINTS, run->points.count, last, &run->board);
    char step[STEP_ROOM];

    fprintf(out, "%*s  # after microcycle %llu, %s\n", width < COMMENT_COLUMN ? COMMENT_COLUMN - width : 0, "",
            (unsigned long long)run->done.count, tell_step(run->step, step));
}

/* An expected log has at least one fetch point. Whether the run comes to one is tried beforehand, which takes no more than the longest
   walk, so that nothing is printed where it does not. */
static bool comes_to_a_point(struct run *run, const struct job *job, struct complaint *complaint)
{
    start_run(run, &job->program, &job->requests);
    while (next_microcycle(run) && !run->at_fetch_point)
        continue;
    if (run->at_fetch_point)
        return true;
    return run_was_good(run, complaint) &&
           complain(complaint, BAD_FILE, job->texts[REQUESTS].name, job->requests.until_line,
                    "the run ends before its first fetch point, and a log needs one; let it run longer");
}

int record(FILE *out, const struct job *job, bool microcycles, struct complaint *complaint)
{
    static struct run run;
    static struct board last_point, last_microcycle;

    if (!comes_to_a_point(&run, job, complaint))
        return complaint->status;
    last_point = last_microcycle = job->requests.start;
    start_run(&run, &job->program, &job->requests);
    fputs("# A line names what changed since the line of its kind before it; all that it does not name is as it was there.\n", out);
    while (!ferror(out) && next_microcycle(&run)) {
        if (microcycles || run.at_fetch_point)
            hide_progress(&run.progress);
        if (microcycles)
            record_microcycle(out, &run, &last_microcycle);
        if (run.at_fetch_point)
            record_point(out, &run, &last_point);
    }
    hide_progress(&run.progress);
    return run_was_good(&run, complaint) ? ALL_RIGHT : complaint->status;
}
