/* The published microprogram's returns to fetch, compared with instruction steps. */
#ifndef ENGINE_RETURNS_H
#define ENGINE_RETURNS_H

#include "comparing.h"

/* Runs the published microprogram on the drawn inputs, whose program and MPC it takes the place of. Each return must show the step that the
   request at its fetch chose, and one call over all bytes the same as one a byte. Answers the number of returns. */
uint64_t compare_returns(enum side side);

#endif
