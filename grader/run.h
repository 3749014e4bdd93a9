/* A run of a microprogram on a board, one microcycle after the other, so that whoever watches it can look at the board after each. */
#ifndef GRADER_RUN_H
#define GRADER_RUN_H

#include "../common/microprogram.h"
#include "progress.h"
#include "requests.h"

/* What the machine does from one fetch to the next: the interrupt step, or the instruction with that opcode at that address. */
struct step {
    bool interrupt;
    unsigned opcode;
    uint32_t address;
};

struct run {
    const struct microprogram *program;
    struct board board;
    struct request_line requests;
    struct progress progress;
    avm_microcycles until, done;
    avm_instructions points; /* fetch points so far, that is returns to fetch */
    bool at_fetch_point;     /* the last microcycle was a return */
    struct step step;        /* that the last microcycle belongs to */
    avm_answer refused;      /* of avm_run; its number is 0 as long as it refused nothing */
};

void start_run(struct run *run, const struct microprogram *program, const struct requests *requests);

/* Does one microcycle; false at the end, or where avm_run refuses it. */
bool next_microcycle(struct run *run);

/* False with a complaint if avm_run refused a microcycle. avm_check has promised that it does not: this is for a broken library. */
bool run_was_good(const struct run *run, struct complaint *complaint);

enum { STEP_ROOM = 24 };

const char *tell_step(struct step step, char room[STEP_ROOM]);

#endif
