/* The command line. */
#ifndef DISPLAY_OPTIONS_H
#define DISPLAY_OPTIONS_H

#include "../common/complaint.h"
#include "schoonleech.h"

enum { FILES_MOST = 2 };

struct options {
    bool help, published, unchecked, frames;
    size_t m;        /* words of memory */
    avm_board start;
    size_t count;    /* of files */
    const char *files[FILES_MOST];
};

bool read_options(char **words, struct options *options, struct complaint *complaint);

void print_help(FILE *out);

#endif
