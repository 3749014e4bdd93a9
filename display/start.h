/* Everything as the command line and its files have it at the start. */
#ifndef DISPLAY_START_H
#define DISPLAY_START_H

#include "keys.h"
#include "options.h"

/* The session must be all 0. */
bool start_session(struct session *session, const struct options *options, struct complaint *complaint);

#endif
