#include "drawing.h"

#include <string.h>

#include "hand.h"

uint32_t draw_value(struct dice *dice)
{
    static const uint32_t edges[] = {0, 1, 2, 0x7FFFFFFE, 0x7FFFFFFF, 0x80000000, 0x80000001, 0xFFFFFFFE, 0xFFFFFFFF};

    switch (dice_below(dice, 4)) {
    case 0: return edges[dice_below(dice, COUNT(edges))];
    case 1: return (uint32_t)dice_below(dice, 64);
    default: return (uint32_t)dice_next(dice);
    }
}

static bool draw_bit(struct dice *dice)
{
    return dice_below(dice, 2);
}

static unsigned draw_code(struct dice *dice, size_t codes)
{
    return (unsigned)dice_below(dice, codes);
}

/* A condition none of whose ways leads outside: the word after the last one is inside only where that is word 0, after 63. */
static unsigned draw_inside_condition(struct dice *dice, size_t place, size_t words)
{
    bool next_is_inside = place + 1 < words || words == 64;
    unsigned cond = draw_code(dice, COND_CODES);

    if (cond == COND_JMP || (cond == COND_JOP ? words >= 36 : next_is_inside))
        return cond;
    return COND_JMP;
}

uint64_t draw_microword(struct dice *dice, size_t place, size_t words, bool careful)
{
    struct microword word;

    memset(&word, 0, sizeof word);
    word.amux = draw_bit(dice);
    word.shft = dice_chance(dice, 50) ? SHFT_NSH : draw_code(dice, 4);
    word.alu = draw_code(dice, ALU_CODES);
    word.mar = draw_bit(dice);
    word.mbr = draw_bit(dice);
    word.pmux = draw_bit(dice);
    word.srca = draw_code(dice, SRCA_CODES);
    word.srcb = draw_code(dice, SRCB_CODES);
    word.trgt = draw_code(dice, TRGT_CODES);
    word.s_sm = dice_chance(dice, 20);
    word.c_sm = dice_chance(dice, 20);
    word.s_ie = dice_chance(dice, 20);
    word.c_ie = dice_chance(dice, 20);
    word.ld_c = draw_bit(dice);
    word.ld_v = draw_bit(dice);
    word.ld_n = draw_bit(dice);
    word.ld_z = draw_bit(dice);
    word.csrc = draw_bit(dice);
    word.iack = draw_bit(dice);
    word.ftch = draw_bit(dice);
    word.rd = draw_bit(dice);
    word.wr = draw_bit(dice);
    word.cond = careful ? draw_inside_condition(dice, place, words) : draw_code(dice, COND_CODES);
    word.addr = draw_code(dice, careful ? words : 64);
    return pack(word);
}

uint64_t draw_bad_microword(struct dice *dice)
{
    uint64_t word = draw_microword(dice, 0, 64, false);

    switch (dice_below(dice, 6)) {
    case 0: return word | (uint64_t)1 << (40 + dice_below(dice, 24));
    case 1: return word | (uint64_t)11 << 33;
    case 2: return word | (uint64_t)6 << 27;
    case 3: return word | (uint64_t)3 << 25;
    case 4: return word | (uint64_t)7 << 22;
    default: return word | (uint64_t)5 << 6;
    }
}

/* One in four is a full store, which nothing can leave; one a shorter one made with care; one made without; and one that fetches, issues and
   decodes with the printed words, so that memory's words become instructions. */
static void draw_program(struct dice *dice, struct inputs *in)
{
    size_t kind = dice_below(dice, 4), place;

    in->words = kind == 0 || kind == 3 ? 64 : 1 + dice_below(dice, 64);
    for (place = 0; place < in->words; place++)
        in->program[place] = draw_microword(dice, place, in->words, kind != 2);
    if (kind == 3) {
        in->program[0] = 0x756D8004F1;
        in->program[1] = 0xF42CC00000;
        in->program[2] = 0x642D000080;
    }
}

/* None, a few, or many up to the most; the share of bytes that ask for something differs from case to case. */
static void draw_requests(struct dice *dice, struct inputs *in, size_t most, size_t codes)
{
    unsigned share = (unsigned)dice_below(dice, 101);
    size_t place;

    in->bytes = dice_below(dice, dice_chance(dice, 50) ? 9 : most + 1);
    for (place = 0; place < in->bytes; place++)
        in->requests[place] = dice_chance(dice, share) ? (uint8_t)dice_below(dice, codes) : 0;
}

static void draw_state(struct dice *dice, struct inputs *in)
{
    size_t k;

    for (k = 0; k < AVM_STATE; k++)
        in->state[k] = draw_value(dice);
    in->state[AVM_MPC] = (uint32_t)dice_below(dice, in->words);
    if (draw_bit(dice))
        in->state[AVM_PSW] &= 0x3F;
    for (k = 0; k < AVM_LATCHES; k++)
        in->latches[k] = draw_value(dice);
    in->mir = draw_microword(dice, in->state[AVM_MPC], in->words, draw_bit(dice));
    in->phase = (uint32_t)dice_below(dice, 4);
}

void draw_inputs(struct dice *dice, struct inputs *in)
{
    size_t k;

    memset(in, 0, sizeof *in);
    in->m = (size_t)16 << dice_below(dice, 11);
    for (k = 0; k < in->m; k++)
        in->memory[k] = draw_value(dice);
    in->count = AVM_REGISTERS;
    for (k = 1; k < in->count; k++)
        in->registers[k] = draw_value(dice);
    draw_program(dice, in);
    draw_state(dice, in);
    draw_requests(dice, in, REQUESTS_ROOM, 4);
}

static size_t draw_length(struct dice *dice, const size_t *lengths, size_t count)
{
    return lengths[dice_below(dice, count)];
}

static void damage_lengths(struct dice *dice, struct inputs *in)
{
    static const size_t lengths[] = {0, 1, 8, 15, 17, 24, 48, 8191, 12288, 16383, 16385, 32768};
    static const size_t counts[] = {0, 1, 16, 31, 33, 64}, programs[] = {0, 65, 66, 128, 1024};

    if (dice_chance(dice, 15))
        in->m = draw_length(dice, lengths, COUNT(lengths));
    if (dice_chance(dice, 15))
        in->count = draw_length(dice, counts, COUNT(counts));
    if (dice_chance(dice, 15))
        in->registers[0] = draw_value(dice);
    if (dice_chance(dice, 15))
        in->words = draw_length(dice, programs, COUNT(programs));
}

static void damage_requests(struct dice *dice, struct inputs *in, size_t lowest_bad)
{
    size_t bad;

    if (in->bytes > 0 && dice_chance(dice, 30))
        for (bad = 1 + dice_below(dice, 3); bad > 0; bad--)
            in->requests[dice_below(dice, in->bytes)] = (uint8_t)(lowest_bad + dice_below(dice, 256 - lowest_bad));
}

void draw_damage(struct dice *dice, struct inputs *in)
{
    size_t bad;

    damage_lengths(dice, in);
    if (in->words > 0 && dice_chance(dice, 20))
        for (bad = 1 + dice_below(dice, 3); bad > 0; bad--)
            in->program[dice_below(dice, in->words)] = draw_bad_microword(dice);
    if (dice_chance(dice, 15))
        in->mir = draw_bad_microword(dice);
    if (dice_chance(dice, 20))
        in->state[AVM_MPC] = draw_bit(dice) ? draw_value(dice) : (uint32_t)in->words;
    if (dice_chance(dice, 15))
        in->phase = draw_bit(dice) ? 4 : draw_value(dice);
    damage_requests(dice, in, 4);
}

/* A word with all bits drawn is an instruction of any kind. One word in five stays as it was, for small addresses and edges to be loaded. */
void draw_steps(struct dice *dice, struct inputs *in)
{
    size_t place;

    for (place = 0; place < in->m; place++)
        if (dice_chance(dice, 80))
            in->memory[place] = (uint32_t)dice_next(dice);
    in->state[AVM_MPC] = draw_value(dice);
    draw_requests(dice, in, 800, 2);
}

void draw_step_damage(struct dice *dice, struct inputs *in)
{
    damage_lengths(dice, in);
    damage_requests(dice, in, 2);
}
