/* The example grader. docs/GRADER.md says how it is used; this file only puts its pieces together. */
#include "marking.h"
#include "options.h"
#include "recording.h"

static int run_job(const struct options *options, struct complaint *complaint)
{
    static struct job job;
    int status;

    if (!read_job(&job, options->names, options->files, complaint))
        status = complaint->status;
    else if (options->mode == RECORD)
        status = record(stdout, &job, options->microcycles, complaint);
    else if (options->microcycles)
        status = mark_in_columns(stdout, &job, options->brief, complaint);
    else
        status = mark_in_list(stdout, &job, options->brief, complaint);
    free_job(&job);
    return status;
}

static int serve(int argc, char **argv, struct complaint *complaint)
{
    struct options options;

    if (!read_options(argc, argv, &options, complaint))
        return complaint->status;
    if (options.mode == HELP)
        print_help(stdout);
    else if (options.mode == PUBLISHED)
        print_published(stdout);
    else
        return run_job(&options, complaint);
    return ALL_RIGHT;
}

int main(int argc, char **argv)
{
    struct complaint complaint;

    return end_program("grader", serve(argc, argv, &complaint), &complaint);
}
