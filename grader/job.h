/* All that a run needs, read from its files and judged before anything is run. */
#ifndef GRADER_JOB_H
#define GRADER_JOB_H

#include "../common/microprogram.h"
#include "expected.h"
#include "requests.h"

/* The files in the order of the command line. */
enum { MICROPROGRAM, IMAGE, REQUESTS, EXPECTED, FILES };

struct job {
    size_t files; /* FILES, or EXPECTED where there is no expected log */
    struct text texts[FILES];
    struct microprogram program;
    struct requests requests;
    struct expected expected;
};

/* Reads that many files. What the job holds is free_job's to give back, also after a complaint. */
bool read_job(struct job *job, const char *const names[FILES], size_t files, struct complaint *complaint);

/* Judges files that have been read. The memory's length stands in the request log, so that one is judged before the image. */
bool judge_job(struct job *job, struct complaint *complaint);

void free_job(struct job *job);

#endif
