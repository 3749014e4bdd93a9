/* What each key does to the bench, and the words about it. */
#ifndef DISPLAY_KEYS_H
#define DISPLAY_KEYS_H

#include "bench.h"

enum { MESSAGE_LINES = 2, MESSAGE_ROOM = 81 };
enum { SPEED_LEAST = 1, SPEED_FIRST = 4, SPEED_MOST = 64 }; /* microcycles a second: powers of two */

struct session {
    struct bench bench;
    const char *program_name, *image_name;
    char message[MESSAGE_LINES][MESSAGE_ROOM]; /* about the last key */
    bool on_terminal;                          /* only there is a clock by which the bench can run */
    bool running;
    unsigned speed;
    bool help; /* the keys are shown instead of the bench */
    bool ended;
};

/* Both lines of the message; the second may be empty. */
void say(struct session *session, const char *first, const char *second);

/* That something was refused by the last call, with the call's number and what it means. */
void say_refused(struct session *session, const char *what, const char *consequence);

void press(struct session *session, char key);

/* One microcycle: what m does, and what a running bench does each time that it is due. */
void microcycle(struct session *session);

/* What the keys are, for a frame and for --help. */
enum { HELP_LINES = 16 };
extern const char *const help_lines[HELP_LINES];

#endif
