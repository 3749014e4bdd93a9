/* Clocks, medians and failures for the measurements of this folder. */
#ifndef BENCH_TIMING_H
#define BENCH_TIMING_H

#include <stddef.h>

enum { REPETITIONS = 21 }; /* of each of two things in one process that are measured in turn */

double processor_seconds(void); /* that this process has used */
double wall_seconds(void);      /* since some moment in the past */

/* Sorts the numbers, so that the lowest and the highest stand first and last, and answers the one in the middle. */
double median(double *numbers, size_t count);

/* Says what is wrong with the case or command of that name, and ends the program with status 1. */
void fail(const char *name, const char *what);

#endif
