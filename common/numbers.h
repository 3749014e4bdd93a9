/* The one place that turns a number of the library's answers into words: what it means, what was found, and what was expected. */
#ifndef COMMON_NUMBERS_H
#define COMMON_NUMBERS_H

#include "complaint.h"
#include "schoonleech.h"

/* What a number means, in a few words. */
const char *meaning(uint64_t number);

/* The words for a refusal of avm_check, lent that microprogram. */
void tell_check(avm_answer answer, const uint64_t *program, size_t words, char room[WORDS_ROOM]);

/* The words for a refusal of avm_read, lent that text and a memory of m words. */
void tell_read(avm_answer answer, size_t m, const char *text, size_t bytes, char room[WORDS_ROOM]);

#endif
