/* A frame: lines of text. It can be printed as it is, or painted on a terminal. */
#ifndef DISPLAY_FRAME_H
#define DISPLAY_FRAME_H

#include <stddef.h>
#include <stdio.h>

enum { FRAME_COLUMNS = 80, FRAME_ROWS_FEWEST = 24, FRAME_ROWS_MOST = 120 };

struct frame {
    size_t rows;
    char text[FRAME_ROWS_MOST][FRAME_COLUMNS + 1]; /* each line with a closing zero */
};

void clear_frame(struct frame *frame, size_t rows);

/* Writes words and gives the column after them. What does not fit is cut. A byte that is no printable ASCII is a question mark. */
size_t put(struct frame *frame, size_t row, size_t column, const char *format, ...);

void print_frame(FILE *out, const struct frame *frame);

/* Over what the terminal shows, from its upper left corner. A star, and what is behind it up to a blank, is in reverse video. */
void paint_frame(FILE *out, const struct frame *frame);

#endif
