/* Walks worked out by hand: how long the longest one is, and where one stands that is not back after 64 microcycles. */
#include "../simulator/phases.h"
#include "../simulator/walks.h"
#include "hand.h"

#include <string.h>

static struct inputs store;

/* Jumps from each word to the next one, up to the last. */
static void jump_through(size_t first, size_t last)
{
    for (; first < last; first++)
        jump(&store, first, first + 1);
}

static void fetch_to_itself(void)
{
    size_t words;

    for (words = 1; words <= 64; words++) {
        stand_at_row(words);
        start_store(&store, words);
        check_walks(&store, accepted(1));
    }
}

/* 0, 1, .. n - 1 and back: n words, n microcycles; by jumps in a store of just these words, and by steps in a full one. */
static void every_length(void)
{
    size_t length, place;

    for (length = 1; length <= 64; length++) {
        stand_at_row(length);
        start_store(&store, length);
        jump_through(0, length - 1);
        check_walks(&store, accepted(length));
        start_store(&store, 64);
        for (place = 0; place < length - 1; place++)
            lead(&store, place, COND_STEP, 63);
        check_walks(&store, accepted(length));
    }
}

/* Word a leads to a + stride modulo 64. An odd stride comes to every word before it is back. */
static void all_words_in_any_order(void)
{
    static const unsigned strides[] = {1, 3, 37, 63};
    size_t k, place;

    for (k = 0; k < COUNT(strides); k++) {
        stand_at_row(k);
        start_store(&store, 64);
        for (place = 0; place < 64; place++)
            jump(&store, place, (place + strides[k]) % 64);
        check_walks(&store, accepted(64));
    }
}

/* 63 is left by a step, and by not taking a jump: 0, 63 and back, where the jump would go on to 5. */
static void after_63_comes_0(void)
{
    start_store(&store, 64);
    jump(&store, 0, 63);
    lead(&store, 63, COND_STEP, 5);
    check_walks(&store, accepted(2));
    lead(&store, 63, COND_JINT, 5);
    check_walks(&store, accepted(3));
    lead(&store, 63, COND_JSM, 5);
    check_walks(&store, accepted(3));
    jump(&store, 5, 63);
    check_walks(&store, refused(18, 5));
}

/* One way is 0, 10, 11, 12 and the other 0, 1; then the other is the longer one: 0, 1, 2, 3, 4. */
static void the_longer_way(void)
{
    static const unsigned conditions[] = {COND_JINT, COND_JSM};
    size_t k;

    for (k = 0; k < COUNT(conditions); k++) {
        stand_at_row(k);
        start_store(&store, 13);
        lead(&store, 0, conditions[k], 10);
        jump_through(10, 12);
        check_walks(&store, accepted(4));
        jump_through(1, 4);
        check_walks(&store, accepted(5));
        lead(&store, 0, conditions[k], 0);
        check_walks(&store, accepted(5));
    }
}

/* 0, 5, 6 and 0, 1, 2, 3, 5, 6 meet in 5, which the shorter one comes to first. */
static void ways_that_meet(void)
{
    start_store(&store, 7);
    lead(&store, 0, COND_JINT, 5);
    jump_through(1, 3);
    jump(&store, 3, 5);
    jump(&store, 5, 6);
    check_walks(&store, accepted(6));
}

/* 3 and 36 are next to what jop leads to and on no walk, so whatever they do is not seen. */
static void jop_leads_to_no_other(void)
{
    start_store(&store, 40);
    lead(&store, 0, COND_JOP, 3);
    jump(&store, 3, 3);
    jump(&store, 36, 63);
    check_walks(&store, accepted(2));
}

/* From each word in turn: 0, k, 36, 37, 38, 39, 40 and back. If 40 leads to k instead, the walk stands on 38 after 64 microcycles, since it
   comes to k after 1 and 63 mod 6 = 3. */
static void jop_leads_to_4_to_35(void)
{
    size_t k;

    for (k = 4; k <= 35; k++) {
        stand_at_row(k);
        start_store(&store, 41);
        lead(&store, 0, COND_JOP, 0);
        jump(&store, k, 36);
        jump_through(36, 40);
        check_walks(&store, accepted(7));
        jump(&store, 40, k);
        check_walks(&store, refused(18, 38));
    }
}

/* A walk that goes 0, 1, 2, .. and comes from the last word back to the one where the circle begins. After n microcycles it stands on n, up
   to the last, and then on first + (n - first) mod length. */
static void circles(void)
{
    static const struct { size_t first, last; uint64_t at; } rows[] = {
        {1, 1, 1},    /* 63 mod 1 = 0: it stands there still */
        {1, 2, 2},    /* 63 mod 2 = 1 */
        {1, 3, 1},    /* 63 mod 3 = 0 */
        {1, 4, 4},    /* 63 mod 4 = 3 */
        {1, 5, 4},    /* 63 mod 5 = 3 */
        {2, 3, 2},    /* 62 mod 2 = 0 */
        {3, 9, 8},    /* 61 mod 7 = 5 */
        {10, 19, 14}, /* 54 mod 10 = 4 */
        {30, 61, 32}, /* 34 mod 32 = 2 */
        {63, 63, 63}, /* 1 mod 1 = 0 */
        {62, 63, 62}, /* 2 mod 2 = 0 */
        {61, 63, 61}, /* 3 mod 3 = 0 */
        {2, 63, 2},   /* 62 mod 62 = 0 */
        {1, 62, 2},   /* 63 mod 62 = 1 */
        {1, 63, 1},   /* 63 mod 63 = 0: the longest circle there can be */
    };
    size_t k;

    for (k = 0; k < COUNT(rows); k++) {
        stand_at_row(k);
        start_store(&store, rows[k].last + 1);
        jump_through(0, rows[k].last);
        jump(&store, rows[k].last, rows[k].first);
        check_walks(&store, refused(18, rows[k].at));
        store.words = 64;
        check_walks(&store, refused(18, rows[k].at));
    }
}

/* Downward: 0, 9, 8, 7, 9, .. stands on 9, 8 and 7 after 1, 2 and 3 microcycles, so on 9 after 64 = 1 + 21 * 3. With one word between 0 and
   9 it is one place behind, on 7, and with two on 8. */
static void circles_downward(void)
{
    start_store(&store, 12);
    jump(&store, 9, 8);
    jump(&store, 8, 7);
    jump(&store, 7, 9);
    jump(&store, 0, 9);
    check_walks(&store, refused(18, 9));
    jump(&store, 0, 11);
    jump(&store, 11, 9);
    check_walks(&store, refused(18, 7));
    jump(&store, 11, 2);
    jump(&store, 2, 9);
    check_walks(&store, refused(18, 8));
}

/* Two circles at once, 1 30 31 30 .. and 5 6 5 ..: after 64 microcycles one walk stands on 30 and one on 6. With 7 in the second circle
   that one stands on 5 + 63 mod 3 = 5; with 30 leading to itself the first stands on 30 still. */
static void two_circles(void)
{
    start_store(&store, 32);
    lead(&store, 0, COND_JINT, 5);
    jump(&store, 1, 30);
    jump(&store, 30, 31);
    jump(&store, 31, 30);
    jump(&store, 5, 6);
    jump(&store, 6, 5);
    check_walks(&store, refused(18, 6));
    jump(&store, 6, 7);
    jump(&store, 7, 5);
    jump(&store, 30, 30);
    check_walks(&store, refused(18, 5));
    /* the second comes back, so the first alone is left */
    jump(&store, 7, 0);
    check_walks(&store, refused(18, 30));
}

/* 1 leads to fetch or to 2, and 2 to 1 again: most runs come back, but a walk need not. After 64 microcycles it stands on 2. */
static void circles_with_a_way_back(void)
{
    static const unsigned conditions[] = {COND_JINT, COND_JSM};
    size_t k;

    for (k = 0; k < COUNT(conditions); k++) {
        stand_at_row(k);
        start_store(&store, 3);
        jump(&store, 0, 1);
        lead(&store, 1, conditions[k], 0);
        jump(&store, 2, 1);
        check_walks(&store, refused(18, 2));
        jump(&store, 2, 0);
        check_walks(&store, accepted(3));
    }
}

/* The circle is closed by the jump not taken, from 3 to 4, or by the jump taken, from 4 to 3. */
static void circles_by_either_way(void)
{
    static const unsigned conditions[] = {COND_JINT, COND_JSM};
    size_t k;

    for (k = 0; k < COUNT(conditions); k++) {
        stand_at_row(k);
        start_store(&store, 5);
        jump(&store, 0, 3);
        lead(&store, 3, conditions[k], 0);
        jump(&store, 4, 3);
        check_walks(&store, refused(18, 4));
        start_store(&store, 6);
        jump(&store, 0, 3);
        jump(&store, 3, 4);
        lead(&store, 4, conditions[k], 3);
        check_walks(&store, refused(18, 4));
    }
}

/* 0, all of 4 to 35, 2, all of 4 to 35, ..: after 64 microcycles 2 alone, and with one word more before it all of 4 to 35. */
static void circles_through_jop(void)
{
    size_t place;

    start_store(&store, 36);
    for (place = 4; place <= 35; place++)
        jump(&store, place, 2);
    lead(&store, 0, COND_JOP, 0);
    lead(&store, 2, COND_JOP, 0);
    check_walks(&store, refused(18, 2));
    jump(&store, 0, 1);
    lead(&store, 1, COND_JOP, 0);
    check_walks(&store, refused(18, 4));
}

static void circles_on_no_walk(void)
{
    start_store(&store, 64);
    jump(&store, 1, 1);
    jump_through(2, 63);
    jump(&store, 63, 2);
    check_walks(&store, accepted(1));
    jump(&store, 0, 1);
    check_walks(&store, refused(18, 1));
}

/* Word 0 sets sm, so no run goes from word 1 to 2. */
static void sm_chosen_anew(void)
{
    struct microword setting = idle();

    setting.s_sm = true;
    setting.cond = COND_STEP;
    start_store(&store, 3);
    store.program[0] = pack(setting);
    lead(&store, 1, COND_JSM, 0);
    check_walks(&store, accepted(3));
    jump(&store, 2, 2);
    check_walks(&store, refused(18, 2));
}

/* 0 and 36 are jop, and only word 10 leads to 36. The opcode that led to 10 leads there again, so a run that is not back stands on 36 after
   64 microcycles. A walk that took 5 at its last jop stands on 1. */
static void opcode_chosen_anew(void)
{
    start_store(&store, 37);
    lead(&store, 0, COND_JOP, 0);
    lead(&store, 36, COND_JOP, 0);
    jump(&store, 10, 36);
    jump(&store, 5, 1);
    check_walks(&store, refused(18, 1));
    jump(&store, 10, 0);
    check_walks(&store, accepted(3));
}

/* Every other field has its highest code and all bits are set, the address too where a step or an opcode leads on. */
static void other_fields(void)
{
    struct microword full = idle();

    full.amux = full.mar = full.mbr = full.pmux = full.s_sm = full.c_sm = full.s_ie = full.c_ie = true;
    full.ld_c = full.ld_v = full.ld_n = full.ld_z = full.csrc = full.iack = full.ftch = full.rd = full.wr = true;
    full.addr = 63;
    full.cond = COND_STEP;
    start_store(&store, 37);
    store.program[0] = pack(full);
    full.cond = COND_JOP;
    store.program[1] = pack(full);
    full.cond = COND_JMP;
    full.addr = 36;
    store.program[20] = pack(full);
    check_walks(&store, accepted(4));
}

static void the_published_program(void)
{
    start(&store);
    publish(&store);
    check_walks(&store, accepted(7));
    store.words = 53;
    check_walks(&store, accepted(7));
}

/* Word 52 ends the interrupt step and INT. If it leads to 49 instead, the first walk is 0, 49, 50, 51, 52, 49, .. and stands on
   49 + 63 mod 4 = 52 after 64 microcycles; INT's is 0, 1, 2, 6, 41, 42, 52, 49, .. and stands on 49 + 57 mod 4 = 50. */
static void the_published_program_in_a_circle(void)
{
    start(&store);
    publish(&store);
    store.program[52] += 49;
    check_walks(&store, refused(18, 50));
    /* without INT's way there */
    jump(&store, 42, 0);
    check_walks(&store, refused(18, 52));
}

static void find_by_sequencer(bool next[ADDRESSES], unsigned mpc, unsigned cond, unsigned addr)
{
    unsigned opcode, bits;

    memset(next, 0, ADDRESSES * sizeof next[0]);
    for (opcode = 0; opcode < 64; opcode++)
        for (bits = 0; bits < 8; bits++)
            next[mpc_unit(mpc, opcode, addr, cond, bits & 1, bits & 2, bits & 4)] = true;
}

/* The definition of possible next addresses itself, for every condition and address in every word. */
static void all_that_the_sequencer_gives(void)
{
    static struct walks walks;
    bool next[ADDRESSES];
    unsigned cond, addr, mpc;

    start_store(&store, 64);
    for (cond = 0; cond < COND_CODES; cond++)
        for (addr = 0; addr < 64; addr++) {
            for (mpc = 0; mpc < 64; mpc++)
                lead(&store, mpc, cond, addr);
            find_walks(&walks, store.program, store.words);
            for (mpc = 0; mpc < 64; mpc++) {
                find_by_sequencer(next, mpc, cond, addr);
                expect(memcmp(next, walks.leads[mpc], sizeof next) == 0, "word %u with condition %u and address %u", mpc, cond, addr);
            }
        }
}

const struct test walk_tests[] = {
    {"possible next addresses are all that the second simulator's sequencer gives", all_that_the_sequencer_gives},
    {"a fetch word that leads only to itself is accepted with 1", fetch_to_itself},
    {"one walk of n words is accepted with n, for every n from 1 to 64", every_length},
    {"a single walk of 64 is accepted with 64 in whatever order it takes the words", all_words_in_any_order},
    {"after word 63 comes fetch, by a step and by a jump not taken", after_63_comes_0},
    {"the longer of two ways counts, whichever of them is the jump", the_longer_way},
    {"of two ways to one word the longer counts, although the shorter comes first", ways_that_meet},
    {"jop leads to every word from 4 to 35", jop_leads_to_4_to_35},
    {"jop leads to no other word", jop_leads_to_no_other},
    {"18 names the word on which a circling walk stands after exactly 64 microcycles", circles},
    {"18 names that word of a circle which goes downward too", circles_downward},
    {"18 names the lowest of the words on which two circling walks stand", two_circles},
    {"a circle that can be left for fetch is refused with 18 all the same", circles_with_a_way_back},
    {"a circle is found through the jump that is taken and through the one that is not", circles_by_either_way},
    {"a circle through jop is refused with 18 and the word of microcycle 64", circles_through_jop},
    {"circles on no walk do not matter", circles_on_no_walk},
    {"sm is chosen anew at every word, also after one that sets it", sm_chosen_anew},
    {"the opcode is chosen anew at every word", opcode_chosen_anew},
    {"no field but COND and ADDR matters, and ADDR only where COND reads it", other_fields},
    {"the published microprogram is accepted with 7, with and without its filler", the_published_program},
    {"the published microprogram is refused with 18 where its interrupt routine does not end", the_published_program_in_a_circle},
    {NULL, NULL},
};
