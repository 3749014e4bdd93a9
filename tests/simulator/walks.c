#include "walks.h"

#include <string.h>

#include "microword.h"

/* What the sequencer can give; a test asks it for every opcode, request latch, ie and sm, and finds just these. */
static void find_next_addresses(bool next[ADDRESSES], size_t word, struct microword fields)
{
    const size_t next_word = (word + 1) % ADDRESSES;
    size_t opcode;

    switch (fields.cond) {
    case COND_STEP:
        next[next_word] = true;
        break;
    case COND_JMP:
        next[fields.addr] = true;
        break;
    case COND_JOP:
        for (opcode = 0; opcode < 32; opcode++)
            next[4 + opcode] = true;
        break;
    case COND_JINT:
    case COND_JSM:
        next[fields.addr] = next[next_word] = true;
    }
}

static void reach(struct walks *walks, size_t word)
{
    size_t next;

    walks->reached[word] = true;
    for (next = 0; next < walks->words; next++)
        if (walks->leads[word][next] && !walks->reached[next])
            reach(walks, next);
}

/* Where walks stand one microcycle after they stood on that word. */
static void go_on(struct walks *walks, size_t microcycles, size_t word)
{
    size_t next;

    if (walks->leads[word][0])
        walks->ends[microcycles + 1] = true;
    for (next = 1; next < walks->words; next++)
        if (walks->leads[word][next])
            walks->stands[microcycles + 1][next] = true;
}

void find_walks(struct walks *walks, const uint64_t *program, size_t words)
{
    size_t microcycles, word;

    memset(walks, 0, sizeof *walks);
    walks->words = words;
    for (word = 0; word < words; word++)
        find_next_addresses(walks->leads[word], word, microword_fields(program[word]));
    reach(walks, 0);
    walks->stands[0][0] = true;
    for (microcycles = 0; microcycles < LONGEST_ALLOWED; microcycles++)
        for (word = 0; word < words; word++)
            if (walks->stands[microcycles][word])
                go_on(walks, microcycles, word);
}

bool can_leave(const struct walks *walks, size_t word)
{
    size_t next;

    for (next = walks->words; next < ADDRESSES; next++)
        if (walks->leads[word][next])
            return true;
    return false;
}

enum visit { NEW, ON_THE_WAY, LEFT_BEHIND };

static bool meets_its_own_way(const struct walks *walks, size_t word, enum visit *visits)
{
    size_t next;

    visits[word] = ON_THE_WAY;
    for (next = 1; next < walks->words; next++)
        if (walks->leads[word][next] && visits[next] != LEFT_BEHIND)
            if (visits[next] == ON_THE_WAY || meets_its_own_way(walks, next, visits))
                return true;
    visits[word] = LEFT_BEHIND;
    return false;
}

bool can_circle(const struct walks *walks)
{
    enum visit visits[ADDRESSES] = {NEW};

    return meets_its_own_way(walks, 0, visits);
}

/* Microcycles from that word to fetch at most. Every word has a next one, so 0 in known means that it has not been asked for. */
static size_t longest_from(const struct walks *walks, size_t word, size_t *known)
{
    size_t next;

    if (known[word] > 0)
        return known[word];
    known[word] = 1;
    for (next = 1; next < walks->words; next++)
        if (walks->leads[word][next]) {
            size_t length = 1 + longest_from(walks, next, known);

            if (length > known[word])
                known[word] = length;
        }
    return known[word];
}

size_t longest_in_depth(const struct walks *walks)
{
    size_t known[ADDRESSES] = {0};

    return longest_from(walks, 0, known);
}
