/* A board: all that the calls are lent of a machine's state, and the request latch. Its parts have numbers and names, so that a log can
   speak of any of them. */
#ifndef GRADER_BOARD_H
#define GRADER_BOARD_H

#include <stdbool.h>
#include <stddef.h>
#include <stdint.h>

#include "../common/text.h"
#include "schoonleech.h"

struct board {
    uint32_t memory[AVM_WORDS_MOST];
    size_t m; /* words of it in use */
    uint32_t registers[AVM_REGISTERS];
    uint32_t state[AVM_STATE];
    uint32_t ireq; /* the request latch: no part of what avm_run is lent, since every microcycle latches its own request byte */
};

/* The two clocks on which a log is kept. A fetch point shows what a programmer sees, a microcycle all parts. */
enum clock { FETCH_POINTS, MICROCYCLES };

/* A part is one of these numbers, or PART_REGISTER + a register's number, or PART_MEMORY + a word's. The first three are settings of a
   request log. IVEC is on neither clock, since no call changes it. */
enum {
    PART_PC, PART_PSW, PART_IVEC,
    PART_SETTINGS,
    PART_IR = PART_SETTINGS, PART_MAR, PART_MBR, PART_MPC, PART_IREQ,
    PART_REGISTER,
    PART_MEMORY = PART_REGISTER + AVM_REGISTERS,
    PARTS = PART_MEMORY + AVM_WORDS_MOST
};

uint32_t part_value(const struct board *board, size_t part);
void set_part(struct board *board, size_t part, uint32_t value);
uint32_t part_most(size_t part); /* the highest value that it can have */

/* The part with that name in a log, such as pc, r8 or m12, if a board with m words of memory shows it on the clock. */
bool part_named(struct word word, enum clock clock, size_t m, size_t *part);

/* The part with that name as a setting: pc, psw or ivec. */
bool setting_named(struct word word, size_t *part);

enum { TOLD_ROOM = 20 };

/* A part's name and its value as they stand in a log. */
const char *log_name(size_t part, char room[TOLD_ROOM]);
const char *log_value(size_t part, uint32_t value, char room[TOLD_ROOM]);

/* The same in words for a person: the name of a part that a fetch point shows, and a value, the status word by its flags. */
const char *told_name(size_t part, char room[TOLD_ROOM]);
const char *told_value(size_t part, uint32_t value, char room[TOLD_ROOM]);

/* The first part from that one on in which two boards with as much memory differ on a clock; PARTS if there is none. */
size_t next_difference(const struct board *one, const struct board *other, enum clock clock, size_t from);

bool boards_agree(const struct board *one, const struct board *other, enum clock clock);

#endif
