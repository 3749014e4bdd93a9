#include "plain_check.h"

#include "plain_microword.h"

/* A set of addresses is a number with a bit for each. */
typedef uint64_t set;

static set only(unsigned address)
{
    return (set)1 << address;
}

static unsigned lowest(set addresses)
{
    return (unsigned)__builtin_ctzll(addresses);
}

static set next_addresses(uint64_t word, unsigned address)
{
    set jump = only(word & 63), step = only((address + 1) & 63);

    switch (word >> 6 & 7) {
    case 0: return step;
    case 1: return jump;
    case 2: return (set)0xFFFFFFFF << 4;
    default: return jump | step;
    }
}

static avm_answer answer(uint64_t number, uint64_t at, uint64_t microcycles)
{
    avm_answer made = {number, at, {microcycles}, {0}};

    return made;
}

/* The lowest word of these from which a walk can leave, or 64. */
static unsigned lowest_leaving(const set *next, set reached, set outside)
{
    for (; reached != 0; reached &= reached - 1)
        if (next[lowest(reached)] & outside)
            return lowest(reached);
    return 64;
}

/* All walks at once, a microcycle a round. */
static avm_answer walk(const set *next, set outside)
{
    set here = only(0), reached = 0, after;
    unsigned microcycles, leaving;

    for (microcycles = 0; here != 0 && microcycles < 64; microcycles++) {
        reached |= here;
        for (after = 0; here != 0; here &= here - 1)
            after |= next[lowest(here)];
        here = after & ~outside & ~only(0);
    }
    leaving = lowest_leaving(next, reached, outside);
    if (leaving < 64)
        return answer(AVM_WALK_LEAVES, leaving, 0);
    return here != 0 ? answer(AVM_WALK_NOT_BACK, lowest(here), 0) : answer(AVM_DONE, 0, microcycles);
}

avm_answer plain_check(const uint64_t *program, size_t words)
{
    set next[64];
    unsigned word;

    if (words < 1 || words > 64)
        return answer(AVM_BAD_PROGRAM_LENGTH, 0, 0);
    for (word = 0; word < words; word++) {
        if (!legal(program[word]))
            return answer(AVM_BAD_MICROWORD, word, 0);
        next[word] = next_addresses(program[word], word);
    }
    return walk(next, words < 64 ? ~(only((unsigned)words) - 1) : 0);
}
