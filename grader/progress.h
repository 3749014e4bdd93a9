/* A line on standard error that says how far long work has come. Where standard error is no terminal there is none. */
#ifndef GRADER_PROGRESS_H
#define GRADER_PROGRESS_H

#include <stdbool.h>

#include "schoonleech.h"

struct progress {
    bool wanted;
    bool shown;  /* it stands on the terminal now */
    double next; /* the second at which it is written again */
    avm_microcycles until;
};

struct progress start_progress(avm_microcycles until);

/* Writes the line again where it is time for that. */
void show_progress(struct progress *progress, avm_microcycles done);

/* Wipes it, so that something else can be printed. */
void hide_progress(struct progress *progress);

#endif
