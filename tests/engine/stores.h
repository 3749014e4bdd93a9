/* Control stores drawn at random, so that avm_check has every answer for many of them and for many reasons. */
#ifndef ENGINE_STORES_H
#define ENGINE_STORES_H

#include "check.h"
#include "places.h"

/* A program and its length, legal or not. Nothing else of the inputs is drawn. */
void draw_store(struct dice *dice, struct inputs *inputs);

/* A machine to run the drawn program on, with MPC at fetch and 16 words of memory. */
void draw_machine(struct dice *dice, struct inputs *inputs);

#endif
