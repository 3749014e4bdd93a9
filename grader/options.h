/* The command line. */
#ifndef GRADER_OPTIONS_H
#define GRADER_OPTIONS_H

#include "job.h"

enum mode { MARK, RECORD, PUBLISHED, HELP };

struct options {
    enum mode mode;
    bool brief, microcycles;
    size_t files;
    const char *names[FILES];
};

bool read_options(int argc, char **argv, struct options *options, struct complaint *complaint);

void print_help(FILE *out);

#endif
