/* avm_check's 4, 5 and 17, worked out by hand, and the order in which it tests. */
#include "hand.h"

static struct inputs store;

static const uint64_t bad_word = (uint64_t)1 << 40;

/* 0 words come with NULL on one side and with a pointer that can't be read on the other. */
static void lengths(void)
{
    static const size_t too_short_or_long[] = {0, 65, 66, 127, 128, 1024};
    size_t k;

    for (k = 0; k < COUNT(too_short_or_long); k++) {
        stand_at_row(k);
        start_store(&store, too_short_or_long[k]);
        check_walks(&store, refused(4, 0));
    }
    start_store(&store, 1);
    check_walks(&store, accepted(1));
    start_store(&store, 64);
    check_walks(&store, accepted(1));
}

/* No walk reaches any word but 0. Of several bad words the lowest is named; one that stands past the program's last word does not count. */
static void bad_words(void)
{
    size_t place;

    for (place = 0; place < 64; place++) {
        stand_at_row(place);
        start_store(&store, 64);
        store.program[place] = bad_word;
        check_walks(&store, refused(5, place));
        store.program[63] = store.program[(place + 63) / 2] = UINT64_MAX;
        check_walks(&store, refused(5, place));
        store.words = place;
        check_walks(&store, place == 0 ? refused(4, 0) : accepted(1));
    }
}

/* From word 3 to the last word of the store, to the address past it and to the highest one there is. */
static void addresses_outside(void)
{
    static const unsigned conditions[] = {COND_JMP, COND_JINT, COND_JSM};
    unsigned words;
    size_t k;

    for (words = 6; words < 64; words++)
        for (k = 0; k < COUNT(conditions); k++) {
            stand_at_row(words);
            start_store(&store, words);
            jump(&store, 0, 3);
            lead(&store, 3, conditions[k], words - 1);
            check_walks(&store, accepted(3));
            lead(&store, 3, conditions[k], words);
            check_walks(&store, refused(17, 3));
            lead(&store, 3, conditions[k], 63);
            check_walks(&store, refused(17, 3));
        }
}

/* From the last word of the store, which is 0 in a store of one word and else comes after 0. In a full store that is word 63. */
static void next_word_outside(void)
{
    static const unsigned conditions[] = {COND_STEP, COND_JINT, COND_JSM};
    size_t words, k;

    for (words = 1; words <= 64; words++)
        for (k = 0; k < COUNT(conditions); k++) {
            stand_at_row(words);
            start_store(&store, words);
            jump(&store, 0, words - 1);
            lead(&store, words - 1, conditions[k], 0);
            check_walks(&store, words < 64 ? refused(17, words - 1) : accepted(2));
        }
}

/* 35 is the highest address that jop can give, so a store needs 36 words. */
static void jop_outside(void)
{
    size_t words;

    for (words = 1; words <= 64; words++) {
        stand_at_row(words);
        start_store(&store, words);
        lead(&store, 0, COND_JOP, 0);
        check_walks(&store, words < 36 ? refused(17, 0) : accepted(2));
    }
}

/* 3 leaves by its jump, and 7 leaves. A store's first word may be the lowest. */
static void lowest_of_two(void)
{
    start_store(&store, 10);
    jump(&store, 0, 3);
    lead(&store, 3, COND_JINT, 20);
    jump(&store, 4, 7);
    jump(&store, 7, 63);
    check_walks(&store, refused(17, 3));
    lead(&store, 0, COND_JSM, 10);
    jump(&store, 1, 3);
    check_walks(&store, refused(17, 0));
}

/* The walk is 0, 8, 9, 5: it comes to 8, which can leave, before it comes to 5. No walk comes to 2 until 9 leads there. */
static void lowest_is_not_the_first(void)
{
    start_store(&store, 10);
    jump(&store, 0, 8);
    lead(&store, 8, COND_JSM, 40);
    jump(&store, 9, 5);
    jump(&store, 5, 10);
    jump(&store, 2, 63);
    check_walks(&store, refused(17, 5));
    jump(&store, 9, 2);
    check_walks(&store, refused(17, 2));
}

static void leaving_on_no_walk(void)
{
    start_store(&store, 10);
    jump(&store, 0, 4);
    jump(&store, 1, 63);
    lead(&store, 5, COND_JOP, 0);
    lead(&store, 9, COND_STEP, 0);
    check_walks(&store, accepted(2));
    lead(&store, 4, COND_JINT, 9);
    check_walks(&store, refused(17, 5));
}

/* Downward through all words: 0, 62, 61, .. 1, and 1 is reached after 62 microcycles and leaves. */
static void leaving_late(void)
{
    size_t place;

    start_store(&store, 63);
    jump(&store, 0, 62);
    for (place = 62; place > 1; place--)
        jump(&store, place, place - 1);
    check_walks(&store, accepted(63));
    jump(&store, 1, 63);
    check_walks(&store, refused(17, 1));
}

/* Word 0 leads to 5 or else to 1, and one of them leaves. */
static void leaving_after_either_way(void)
{
    static const unsigned conditions[] = {COND_JINT, COND_JSM};
    size_t k;

    for (k = 0; k < COUNT(conditions); k++) {
        stand_at_row(k);
        start_store(&store, 6);
        lead(&store, 0, conditions[k], 5);
        jump(&store, 1, 6);
        check_walks(&store, refused(17, 1));
        jump(&store, 1, 0);
        jump(&store, 5, 6);
        check_walks(&store, refused(17, 5));
    }
}

/* Each word that jop leads to, alone; then 3 and 36 beside them, which it does not lead to. */
static void leaving_after_jop(void)
{
    size_t k;

    for (k = 3; k <= 36; k++) {
        stand_at_row(k);
        start_store(&store, 40);
        lead(&store, 0, COND_JOP, 0);
        jump(&store, k, 40);
        check_walks(&store, k == 3 || k == 36 ? accepted(2) : refused(17, k));
    }
}

/* A store in which a walk comes to 2, and one by 1 to 3. Each fault is put in by its number. */
static void put_fault(unsigned number)
{
    switch (number) {
    case 4: store.words = 65; break;
    case 5: store.program[20] = store.program[40] = bad_word; break;
    case 17: jump(&store, 2, 60); break;
    case 18: jump(&store, 3, 3); break;
    }
}

static void several_faults(void)
{
    static const unsigned numbers[] = {4, 5, 17, 18}, words[] = {0, 20, 2, 3};
    unsigned set, k;

    for (set = 0; set < 16; set++) {
        avm_answer want = accepted(3);

        stand_at_row(set);
        start_store(&store, 50);
        lead(&store, 0, COND_JINT, 2);
        jump(&store, 1, 3);
        for (k = 4; k-- > 0;)
            if (set >> k & 1) {
                put_fault(numbers[k]);
                want = refused(numbers[k], words[k]);
            }
        check_walks(&store, want);
    }
}

/* The circle is lower than the word that leaves; the word that leaves is on the circle; and the circle is entered before it is reached. */
static void leaving_beside_a_circle(void)
{
    start_store(&store, 20);
    lead(&store, 0, COND_JINT, 9);
    jump(&store, 1, 1);
    jump(&store, 9, 20);
    check_walks(&store, refused(17, 9));
    start_store(&store, 20);
    jump(&store, 0, 4);
    lead(&store, 4, COND_JSM, 50);
    jump(&store, 5, 4);
    check_walks(&store, refused(17, 4));
    start_store(&store, 20);
    jump(&store, 0, 2);
    lead(&store, 2, COND_JINT, 2);
    jump(&store, 3, 19);
    lead(&store, 19, COND_STEP, 0);
    check_walks(&store, refused(17, 19));
}

/* A bad word counts even where no walk comes to it and another word, which is lower, leaves or circles. */
static void bad_words_first(void)
{
    start_store(&store, 30);
    jump(&store, 0, 63);
    store.program[29] = bad_word;
    check_walks(&store, refused(5, 29));
    start_store(&store, 30);
    jump(&store, 0, 1);
    jump(&store, 1, 1);
    store.program[29] = bad_word;
    check_walks(&store, refused(5, 29));
}

/* Word 0 leads to 49; 49 steps on, and INT's word 42 leads to 52. */
static void the_published_program_cut(void)
{
    start(&store);
    publish(&store);
    for (store.words = 1; store.words <= 64; store.words++) {
        stand_at_row(store.words);
        check_walks(&store, store.words <= 49 ? refused(17, 0) : store.words <= 52 ? refused(17, 42) : accepted(7));
    }
}

const struct test walk_refusal_tests[] = {
    {"avm_check answers 4 for no words, also with NULL, and for more than 64", lengths},
    {"avm_check answers 5 for the lowest bad word, on a walk or not, and reads no word past the last", bad_words},
    {"17 is answered for an address that is not below words, by every jump", addresses_outside},
    {"17 is answered for the word after the last, also where a jump is not taken, unless that is 63", next_word_outside},
    {"17 is answered for jop in a store of fewer than 36 words", jop_outside},
    {"17 names the lower of two words from which a walk can leave", lowest_of_two},
    {"17 names the lowest word that a walk reaches, not the first that it comes to", lowest_is_not_the_first},
    {"words that could leave but are on no walk do not matter", leaving_on_no_walk},
    {"a word that leaves is found at the end of the longest walk", leaving_late},
    {"a word that leaves is found through the jump that is taken and through the one that is not", leaving_after_either_way},
    {"a word that leaves is found through jop, from 4 to 35 and not beside", leaving_after_jop},
    {"of all sets of faults 4, 5, 17 and 18 the lowest number is answered", several_faults},
    {"17 comes before 18, whichever word is lower and wherever the circle is", leaving_beside_a_circle},
    {"5 comes before 17 and 18 although its word is higher and on no walk", bad_words_first},
    {"the published microprogram is refused with 17 where it is cut short", the_published_program_cut},
    {NULL, NULL},
};
