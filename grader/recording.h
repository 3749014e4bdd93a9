/* Recording: the log of a run, in the form of an expected log. */
#ifndef GRADER_RECORDING_H
#define GRADER_RECORDING_H

#include "job.h"

/* Prints a line for each fetch point, and for each microcycle if they are wanted. The status is ALL_RIGHT, or that of the complaint, such
   as the one about a run that ends before its first fetch point. */
int record(FILE *out, const struct job *job, bool microcycles, struct complaint *complaint);

#endif
