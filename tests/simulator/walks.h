/* The scope's walks through a control store: they start at fetch, go to a possible next address in each microcycle, and end at their first
   return to fetch. Plain tables of truth values, filled by searching. */
#ifndef SIMULATOR_WALKS_H
#define SIMULATOR_WALKS_H

#include <stdbool.h>
#include <stddef.h>
#include <stdint.h>

enum { ADDRESSES = 64, LONGEST_ALLOWED = 64 };

struct walks {
    size_t words;
    bool leads[ADDRESSES][ADDRESSES];            /* leads[a][b]: word a has b as a possible next address */
    bool reached[ADDRESSES];                     /* a walk comes to this word */
    bool stands[LONGEST_ALLOWED + 1][ADDRESSES]; /* stands[n][a]: after n microcycles a walk stands on a and has not been back at fetch */
    bool ends[LONGEST_ALLOWED + 1];              /* ends[n]: a walk is back at fetch after n microcycles, for the first time */
};

/* Fills all tables. The words are legal, and 1 to 64 of them. */
void find_walks(struct walks *walks, const uint64_t *program, size_t words);

/* Whether the word has a possible next address outside the control store. */
bool can_leave(const struct walks *walks, size_t word);

/* A second way to what stands and ends say: a search in depth, over leads alone, which knows of no 64. A walk can circle if it can come to a
   word that it has been on; the longest walk can be asked for only where none can circle and none can leave. */
bool can_circle(const struct walks *walks);
size_t longest_in_depth(const struct walks *walks);

#endif
