/* Microprogram files: one microword a line, in hexadecimal digits, from word 0 on. */
#ifndef COMMON_MICROPROGRAM_H
#define COMMON_MICROPROGRAM_H

#include "schoonleech.h"
#include "text.h"

enum { PROGRAM_ROOM = AVM_PROGRAM_MOST + 1 }; /* one word too many: that they are too many is for avm_check to say */

struct microprogram {
    uint64_t words[PROGRAM_ROOM];
    size_t lines[PROGRAM_ROOM]; /* of the file, on which the words stand */
    size_t count;               /* of the file; words beyond the room are counted and not kept */
    avm_microcycles longest;    /* walk from fetch back to fetch */
};

/* Reads a microprogram and has avm_check accept it. */
bool read_microprogram(const struct text *text, struct microprogram *program, struct complaint *complaint);

/* Microwords that are there to be lent: enough for the library to refuse them where the file has too many. */
size_t words_lent(const struct microprogram *program);

/* Prints the published microprogram as such a file. */
void print_published(FILE *out);

#endif
