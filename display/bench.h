/* The bench: one board that is advanced where it stands, and all that it is lent from call to call. Whoever writes a display reads this
   part first: every call that moves the board is in bench.c. */
#ifndef DISPLAY_BENCH_H
#define DISPLAY_BENCH_H

#include "../common/microprogram.h"

/* All that a call can change. */
struct moment {
    avm_board board;
    uint32_t memory[AVM_WORDS_MOST];
};

struct bench {
    struct microprogram program;
    size_t m; /* words of memory in use */
    struct moment now;
    struct moment before; /* as it was before the last move, so that a display can mark what differs */
    bool request;         /* the request line is up */
    avm_microcycles microcycles;
    avm_instructions steps;
    avm_answer answer; /* of the last call */
};

/* Moves. Each is false where the library refused a call, and the answer then says why. */
bool do_microcycle(struct bench *bench);
bool do_step(struct bench *bench);

/* Microcycles until MPC is at fetch again, AVM_WALK_MOST at most. Gives how many were done. */
bool run_to_fetch(struct bench *bench, unsigned *done);

#endif
