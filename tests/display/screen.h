/* A terminal's screen, as far as the display may use one. It takes the bytes that a program writes, and whatever else than the sequences
   that it knows comes, or text in a place where a display has none, is a fault. */
#ifndef DISPLAY_SCREEN_H
#define DISPLAY_SCREEN_H

#include <stdbool.h>
#include <stddef.h>

enum { COLUMNS_MOST = 200, ROWS_MOST = 200, SEQUENCE_ROOM = 16 };

struct screen {
    size_t columns, rows;
    char text[ROWS_MOST][COLUMNS_MOST];
    bool reversed[ROWS_MOST][COLUMNS_MOST];
    size_t column, row; /* of the cursor; the column is the width after text in the last one */
    bool alternate, cursor_hidden, reverse;
    bool stale; /* the size has changed, and what comes may still be meant for the one before, until all is erased */
    int entered, left; /* how often the alternate screen was */
    int erased;        /* how often all of it was, since its size changed */
    char sequence[SEQUENCE_ROOM]; /* begun and not ended */
    size_t length;                /* of it */
    const char *fault;            /* NULL as long as there is none */
};

/* Nothing of the screen is left: what a terminal keeps when its size changes is its own matter. */
void resize_screen(struct screen *screen, size_t columns, size_t rows);

void write_to_screen(struct screen *screen, const char *bytes, size_t count);

/* A row without the blanks at its end. The room has a closing zero. */
const char *row_of(const struct screen *screen, size_t row, char room[COLUMNS_MOST + 1]);

/* Whether exactly the stars, each with the value behind it, are in reverse video. */
bool stars_are_reversed(const struct screen *screen);

#endif
