/* What a frame shows: the bench, its clocks and what was said last, or the keys. */
#ifndef DISPLAY_PANEL_H
#define DISPLAY_PANEL_H

#include "frame.h"
#include "keys.h"

void draw_panel(struct frame *frame, const struct session *session, size_t rows);

#endif
