/* The one message that a program gives about what it can't use, and the status that it ends with. */
#ifndef COMMON_COMPLAINT_H
#define COMMON_COMPLAINT_H

#include <stdbool.h>
#include <stddef.h>
#include <stdio.h>

/* Statuses that programs end with. Those from BAD_COMMAND on come with a complaint; 1 is for a program to give a meaning of its own. */
enum {
    ALL_RIGHT = 0,
    BAD_COMMAND = 2,
    BAD_FILE = 3,
    PROGRAM_REFUSED = 4,
    OUTPUT_LOST = 5
};

enum { WORDS_ROOM = 512 };

struct complaint {
    int status;
    const char *file; /* NULL where it is about no file */
    size_t line;      /* 0 where it is about no line */
    char words[WORDS_ROOM];
};

/* Fills in the complaint. It always returns false, so that whoever finds a fault can end with `return complain(..)`. */
bool complain(struct complaint *complaint, int status, const char *file, size_t line, const char *format, ...);

/* Complains about the command line of the program with that name: what is wrong, and the word that shows it or "". */
bool misunderstood(struct complaint *complaint, const char *program, const char *what, const char *word);

/* The status that a program with that name ends with: the given one, or OUTPUT_LOST where standard output can't be written. A complaint is
   printed, under the program's name where it is about no file. */
int end_program(const char *program, int status, struct complaint *complaint);

#endif
