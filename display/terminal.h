/* The terminal: single keys, an alternate screen, its size, and all as it was when the display ends. */
#ifndef DISPLAY_TERMINAL_H
#define DISPLAY_TERMINAL_H

#include <stdbool.h>
#include <stddef.h>

/* Takes the terminal: keys come one by one and are not echoed. False where standard input or standard output is none. */
bool take_terminal(void);

/* Gives it back. A signal that ended the display is raised again, so that whoever started it sees the end that was asked for. */
void give_terminal_back(void);

struct size {
    size_t columns, rows;
};

struct size terminal_size(void);

enum event { KEY, TIME, RESIZED, ENDED };

/* Waits for a key, for so many seconds at most, or without an end where they are negative. ENDED is a signal that asks for the end, or a
   terminal that is gone. */
enum event wait_for_event(double seconds, char *key);

#endif
