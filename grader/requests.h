/* Request logs: what a board is given from outside. First its starting state, then the request line, and how long it runs. */
#ifndef GRADER_REQUESTS_H
#define GRADER_REQUESTS_H

#include "../common/text.h"
#include "board.h"

enum { MICROCYCLES_MOST = 1000000000 };

struct requests {
    struct board start; /* all but what an image stores in its memory */
    avm_microcycles until;
    size_t until_line;        /* that says so */
    struct cursor first_from; /* before the lines with from */
};

bool read_requests(const struct text *text, struct requests *requests, struct complaint *complaint);

/* The request line, microcycle after microcycle. */
struct request_line {
    struct cursor cursor;
    uint8_t request; /* of this microcycle */
    uint64_t until;  /* the microcycle that begins with another request */
    uint8_t next;    /* and that request */
};

struct request_line start_request_line(const struct requests *requests);

/* The request byte of a microcycle, counted from 1. The microcycles must be asked for in their order. */
uint8_t request_of(struct request_line *line, uint64_t microcycle);

#endif
