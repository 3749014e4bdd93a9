/* Inputs drawn at random, legal and damaged. */
#ifndef ENGINE_DRAWING_H
#define ENGINE_DRAWING_H

#include "check.h"
#include "places.h"

/* A word with the edges of the signed and unsigned range, and small numbers, more often than chance gives them. */
uint32_t draw_value(struct dice *dice);

/* A legal microword for that place of a program of that many words. A careful one can't leave the program. */
uint64_t draw_microword(struct dice *dice, size_t place, size_t words, bool careful);

/* A number that is no legal microword. */
uint64_t draw_bad_microword(struct dice *dice);

/* Inputs that no call refuses before its first step. The PSW and the one-bit latches may hold more than they mean. */
void draw_inputs(struct dice *dice, struct inputs *inputs);

/* Damages some of what is lent, so that a call refuses it with 1 to 7, or now and then nothing. */
void draw_damage(struct dice *dice, struct inputs *inputs);

/* Makes drawn inputs fit for steps: instructions in memory, request bytes of 0 and 1, and any MPC. */
void draw_steps(struct dice *dice, struct inputs *inputs);

/* Damages some of what avm_steps is lent, so that it refuses with 1, 2, 3 or 7, or now and then nothing. */
void draw_step_damage(struct dice *dice, struct inputs *inputs);

#endif
