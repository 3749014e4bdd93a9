#include "stores.h"

#include "drawing.h"
#include "hand.h"

enum { FIRST_OPCODE_WORD = 4, LAST_OPCODE_WORD = 35 };

/* An order of a store's words, fetch first. A store whose words lead only to later ones and to fetch is accepted. */
struct order {
    size_t words;
    size_t word[64], place[64]; /* the word in each place, and each word's place */
    size_t first_opcode_word;   /* the place of the first word that jop leads to; 0 where not all of them are in the store */
};

/* How long the walks are to be: how often an address is fetch, and else the very next word of the order. Where it always is, the conditions
   too are such that a walk can go there: a walk through all words. */
struct manner {
    unsigned home, close; /* percent */
};

static void exchange(size_t *words, size_t a, size_t b)
{
    size_t word = words[a];

    words[a] = words[b];
    words[b] = word;
}

/* Words as they stand, or shuffled. Of those that are shuffled, in half of the stores the words that jop leads to come last. */
static void shuffle(struct dice *dice, struct order *order)
{
    size_t place, later;
    bool opcodes_last = dice_chance(dice, 50);

    if (dice_chance(dice, 40))
        return;
    for (place = order->words; place-- > 2;)
        exchange(order->word, place, 1 + dice_below(dice, place));
    for (place = later = order->words; opcodes_last && place-- > 1;)
        if (order->word[place] >= FIRST_OPCODE_WORD && order->word[place] <= LAST_OPCODE_WORD)
            exchange(order->word, place, --later);
}

static struct order draw_order(struct dice *dice, size_t words)
{
    struct order order = {.words = words};
    size_t k;

    for (k = 0; k < words; k++)
        order.word[k] = k;
    shuffle(dice, &order);
    for (k = words; k-- > 0;) {
        order.place[order.word[k]] = k;
        if (words > LAST_OPCODE_WORD && order.word[k] >= FIRST_OPCODE_WORD && order.word[k] <= LAST_OPCODE_WORD)
            order.first_opcode_word = k;
    }
    return order;
}

static bool goes_forward(const struct order *order, size_t from, size_t to)
{
    return to == 0 || (to < order->words && order->place[to] > order->place[from]);
}

static unsigned draw_forward_address(struct dice *dice, const struct order *order, struct manner manner, size_t word)
{
    size_t place = order->place[word], later = order->words - 1 - place;

    if (later == 0 || dice_chance(dice, manner.home))
        return 0;
    return (unsigned)order->word[place + 1 + (dice_chance(dice, manner.close) ? 0 : dice_below(dice, later))];
}

static unsigned draw_forward_condition(struct dice *dice, const struct order *order, struct manner manner, size_t word)
{
    unsigned cond = (unsigned)dice_below(dice, COND_CODES);
    size_t next_word = (word + 1) % 64;

    if (manner.close == 100 && (cond == COND_JOP || (cond == COND_STEP && order->place[next_word] != order->place[word] + 1)))
        return COND_JMP;
    if (cond == COND_JOP)
        return order->place[word] < order->first_opcode_word ? cond : COND_JMP;
    return goes_forward(order, word, next_word) ? cond : COND_JMP;
}

/* Keeps what the word does beside leading on. C leaves open in which order arguments are made, so none of them draws. */
static void redirect(struct inputs *in, size_t word, unsigned cond, unsigned addr)
{
    in->program[word] = (in->program[word] & ~(uint64_t)0x1FF) | cond << 6 | addr;
}

/* Any legal words, which lead anywhere; in most stores each is then made to lead forward. */
static void draw_words(struct dice *dice, struct inputs *in, const struct order *order)
{
    static const unsigned shares[] = {0, 0, 10, 40, 90, 100};
    bool forward = dice_chance(dice, 90);
    struct manner manner;
    size_t word;

    manner.home = shares[dice_below(dice, 4)];
    manner.close = shares[dice_below(dice, COUNT(shares))];
    for (word = 0; word < in->words; word++) {
        in->program[word] = draw_microword(dice, word, in->words, false);
        if (forward) {
            unsigned cond = draw_forward_condition(dice, order, manner, word);
            unsigned addr = draw_forward_address(dice, order, manner, word);

            redirect(in, word, cond, addr);
        }
    }
}

static unsigned draw_jump(struct dice *dice)
{
    static const unsigned jumps[] = {COND_JMP, COND_JINT, COND_JSM};

    return jumps[dice_below(dice, COUNT(jumps))];
}

/* A few words that lead back to an earlier word or to themselves. */
static void lead_back(struct dice *dice, struct inputs *in, const struct order *order)
{
    size_t times;

    for (times = 1 + dice_below(dice, 3); times > 0 && order->words > 1; times--) {
        size_t place = 1 + dice_below(dice, order->words - 1), back = 1 + dice_below(dice, place);
        unsigned cond = draw_jump(dice);

        redirect(in, order->word[place], cond, (unsigned)order->word[back]);
    }
}

/* A few words that lead out of the store, by their address, or by whatever a drawn condition does in that place. */
static void lead_out(struct dice *dice, struct inputs *in)
{
    size_t times;

    for (times = 1 + dice_below(dice, 4); times > 0 && in->words < 64; times--) {
        size_t word = dice_below(dice, in->words), addr = in->words + dice_below(dice, 64 - in->words);
        unsigned cond = dice_chance(dice, 30) ? (unsigned)dice_below(dice, COND_CODES) : draw_jump(dice);

        redirect(in, word, cond, (unsigned)addr);
    }
}

static void spoil(struct dice *dice, struct inputs *in)
{
    size_t times;

    for (times = 1 + dice_below(dice, 3); times > 0; times--)
        in->program[dice_below(dice, in->words)] = draw_bad_microword(dice);
}

/* The words again and again, where that is more than there were. */
static void change_length(struct dice *dice, struct inputs *in)
{
    static const size_t lengths[] = {0, 65, 66, 128, 1024};
    size_t words = in->words, k;

    in->words = lengths[dice_below(dice, COUNT(lengths))];
    for (k = words; k < in->words; k++)
        in->program[k] = in->program[k - words];
}

/* From one word to another one alone, by its address or, where that is the next word, by any condition that leads there. */
static void lead_alone(struct dice *dice, struct inputs *in, size_t from, size_t to)
{
    static const unsigned conditions[] = {COND_STEP, COND_JMP, COND_JINT, COND_JSM};
    unsigned cond = to == from + 1 ? conditions[dice_below(dice, COUNT(conditions))] : COND_JMP;

    redirect(in, from, cond, (unsigned)to);
}

/* One walk through all words of a full store or one word less: no word is reached in any other way. The last one leads to fetch, back into
   the walk, or out of the store where there is an address outside. */
static void draw_long_walk(struct dice *dice, struct inputs *in)
{
    struct order order;
    size_t place, last;
    unsigned cond = draw_jump(dice);

    in->words = 63 + dice_below(dice, 2);
    order = draw_order(dice, in->words);
    for (place = 0; place < in->words; place++)
        in->program[place] = draw_microword(dice, place, in->words, false);
    for (place = 0; place + 1 < in->words; place++)
        lead_alone(dice, in, order.word[place], order.word[place + 1]);
    last = order.word[place];
    switch (dice_below(dice, 3)) {
    case 0: redirect(in, last, COND_JMP, AVM_FETCH); break;
    case 1: redirect(in, last, cond, (unsigned)order.word[1 + dice_below(dice, place)]); break;
    default: redirect(in, last, cond, (unsigned)in->words % 64); break;
    }
}

static size_t draw_number_of_words(struct dice *dice)
{
    switch (dice_below(dice, 4)) {
    case 0: return 64;
    case 1: return 36 + dice_below(dice, 28);
    default: return 1 + dice_below(dice, 64);
    }
}

static void draw_ways(struct dice *dice, struct inputs *in)
{
    struct order order;

    in->words = draw_number_of_words(dice);
    order = draw_order(dice, in->words);
    draw_words(dice, in, &order);
    if (dice_chance(dice, 30))
        lead_back(dice, in, &order);
    if (dice_chance(dice, 30))
        lead_out(dice, in);
}

void draw_store(struct dice *dice, struct inputs *in)
{
    (dice_chance(dice, 10) ? draw_long_walk : draw_ways)(dice, in);
    if (dice_chance(dice, 12))
        spoil(dice, in);
    if (dice_chance(dice, 8))
        change_length(dice, in);
}

void draw_machine(struct dice *dice, struct inputs *in)
{
    size_t k;

    in->m = AVM_WORDS_FEWEST;
    for (k = 0; k < in->m; k++)
        in->memory[k] = (uint32_t)dice_next(dice);
    in->count = AVM_REGISTERS;
    in->registers[0] = 0;
    for (k = 1; k < in->count; k++)
        in->registers[k] = (uint32_t)dice_next(dice);
    for (k = 0; k < AVM_STATE; k++)
        in->state[k] = draw_value(dice);
    in->state[AVM_IR] = (uint32_t)dice_next(dice);
    in->state[AVM_MPC] = AVM_FETCH;
}
