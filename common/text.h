/* Plain text files: lines of words. A # starts a comment, blanks and tabs part the words, LF or CR LF ends a line. */
#ifndef COMMON_TEXT_H
#define COMMON_TEXT_H

#include <stdbool.h>
#include <stddef.h>
#include <stdint.h>

#include "complaint.h"
#include "schoonleech.h"

enum { TEXT_MOST = 64 * 1024 * 1024 }; /* bytes of a file */

struct text {
    const char *name;
    char *bytes;
    size_t length;
};

/* Reads a whole file. What it holds is free_text's to give back, also after a complaint. */
bool read_text(const char *name, struct text *text, struct complaint *complaint);
void free_text(struct text *text);

struct word {
    const char *start;
    size_t length;
};

bool word_is(struct word word, const char *wanted);

/* What a hexadecimal digit counts, or 16 where the character is none. */
unsigned digit(char character);

/* A decimal number, or a hexadecimal one after 0x, if it is not above the most. */
bool word_is_number(struct word word, uint64_t most, uint64_t *number);

/* A number of memory words that the library takes, and what it is called where another word stands. */
#define TEXT_OF(number) #number
#define IN_TEXT(constant) TEXT_OF(constant)
#define MEMORY_LENGTH "a power of two from " IN_TEXT(AVM_WORDS_FEWEST) " to " IN_TEXT(AVM_WORDS_MOST)
bool word_is_memory_length(struct word word, size_t *m);

/* Hexadecimal digits, 1 to 16 of them. */
bool word_is_hexadecimal(struct word word, uint64_t *number);

enum { QUOTED_MOST = 40, QUOTED_ROOM = QUOTED_MOST + 8 };

/* The word between quotes. A long one is cut and a byte that is no printable ASCII is a question mark: a file may hold anything. */
const char *quote(struct word word, char room[QUOTED_ROOM]);

/* Where a reader stands in a text: on a line, before one of its words. */
struct cursor {
    const struct text *text;
    size_t line;      /* counted from 1; 0 before the first */
    size_t place;     /* of the next byte to look at */
    size_t line_ends; /* where the line's words end */
    size_t next_line; /* where the next line starts */
};

struct cursor start_of(const struct text *text);

/* To the next line that has a word; false where there is none. */
bool next_line(struct cursor *cursor);

/* The next word of the line; false where there is none. */
bool next_word(struct cursor *cursor, struct word *word);

/* Complains about the line: expected that, found the word, or the line's end where it is NULL. */
bool unexpected(const struct cursor *cursor, const struct word *found, struct complaint *complaint, const char *expected, ...);

/* Both take what the line must go on with, or complain. The noun says what the number is, such as "microcycle". */
bool take_number(struct cursor *cursor, const char *noun, uint64_t least, uint64_t most, uint64_t *number, struct complaint *complaint);
bool take_line_end(struct cursor *cursor, struct complaint *complaint);

#endif
