/* Words, flags, the PSW, the register rule and the jump decision, seen through runs of one microword. Expected values are worked out by hand
   from the scope's rules and examples. */
#include "hand.h"

static struct inputs before, after;

/* A word with A input MBR, B input IVEC, no shift and no target, which comes back to 0. */
static struct microword of_mbr_and_ivec(unsigned alu)
{
    struct microword word = idle();

    word.amux = true;
    word.alu = alu;
    word.srcb = SRCB_IVEC;
    return word;
}

static struct microword loading_all_flags(struct microword word)
{
    word.ld_c = word.ld_v = word.ld_n = word.ld_z = true;
    return word;
}

static void prepare(struct microword word, uint32_t mbr, uint32_t ivec, uint32_t psw)
{
    start(&before);
    before.program[0] = pack(word);
    before.state[AVM_MBR] = mbr;
    before.state[AVM_IVEC] = ivec;
    before.state[AVM_PSW] = psw;
    after = before;
}

/* Carry in counts for addc and subc alone. 5 - FFFFFFFF - 1 borrows, since b + c is 2^32. 0 - 80000000 - 1 is 2^31 - 1: no overflow. */
static const struct { unsigned alu; uint32_t a, b, carry, result, flags; } sums[] = {
    {ALU_ADD, 0xFFFFFFFF, 1, C, 0, C | Z},
    {ALU_ADD, 0x7FFFFFFF, 1, 0, 0x80000000, N | V},
    {ALU_ADD, 0x80000000, 0x80000000, 0, 0, C | V | Z},
    {ALU_ADDC, 0xFFFFFFFF, 0, C, 0, C | Z},
    {ALU_ADDC, 0xFFFFFFFF, 0, 0, 0xFFFFFFFF, N},
    {ALU_ADDC, 0xFFFFFFFF, 0xFFFFFFFF, C, 0xFFFFFFFF, C | N},
    {ALU_ADDC, 0x7FFFFFFF, 0, C, 0x80000000, N | V},
    {ALU_INC, 0xFFFFFFFF, 9, C, 0, C | Z},
    {ALU_INC, 0x7FFFFFFF, 9, 0, 0x80000000, N | V},
    {ALU_SUB, 0, 1, C, 0xFFFFFFFF, N},
    {ALU_SUB, 5, 5, 0, 0, C | Z},
    {ALU_SUB, 0x80000000, 1, 0, 0x7FFFFFFF, C | V},
    {ALU_SUB, 0, 0x80000000, 0, 0x80000000, N | V},
    {ALU_SUBC, 5, 4, C, 0, C | Z},
    {ALU_SUBC, 5, 5, C, 0xFFFFFFFF, N},
    {ALU_SUBC, 5, 5, 0, 0, C | Z},
    {ALU_SUBC, 5, 0xFFFFFFFF, C, 5, 0},
    {ALU_SUBC, 0x80000000, 0, C, 0x7FFFFFFF, C | V},
    {ALU_SUBC, 0, 0x80000000, C, 0x7FFFFFFF, 0},
    {ALU_DEC, 0, 9, C, 0xFFFFFFFF, N},
    {ALU_DEC, 1, 9, 0, 0, C | Z},
    {ALU_DEC, 0x80000000, 9, 0, 0x7FFFFFFF, C | V},
    {ALU_BAND, 0xFFFF0000, 0x8000FFFF, C, 0x80000000, N},
    {ALU_BXOR, 0xFFFF0000, 0xFFFF0000, C, 0, Z},
    {ALU_BOR, 0x0F0F0000, 0x00000F0F, C, 0x0F0F0F0F, 0},
    {ALU_BNOT, 0xFFFFFFFF, 9, C, 0, Z},
    {ALU_NOP, 0x80000001, 9, C, 0x80000001, N},
};

static void arithmetic_and_its_flags(void)
{
    static const uint32_t flags_before[] = {0, V | N | Z};
    size_t k, old;

    for (k = 0; k < COUNT(sums); k++)
        for (old = 0; old < COUNT(flags_before); old++) {
            struct microword word = loading_all_flags(of_mbr_and_ivec(sums[k].alu));

            stand_at_row(k);
            word.csrc = true;
            word.trgt = TRGT_PC;
            prepare(word, sums[k].a, sums[k].b, IE | flags_before[old] | sums[k].carry);
            after.state[AVM_PC] = sums[k].result;
            after.state[AVM_PSW] = IE | sums[k].flags;
            check_run(&before, &after, done(1, 1));
        }
}

/* Runs the prepared word on all pairs of edges as MBR and IVEC, with c clear and set, on engine and simulator. */
static void compare_on_edges(void)
{
    static const uint32_t edges[] = {0, 1, 2, 0xFFFF, 0x55555555, 0xAAAAAAAA, 0x7FFFFFFE, 0x7FFFFFFF,
                                     0x80000000, 0x80000001, 0xBFFFFFFF, 0xC0000000, 0xFFFFFFFE, 0xFFFFFFFF};
    struct places lent = lend(&before, AT_END), own = places_in(&before);
    size_t a, b;
    uint32_t carry;

    for (a = 0; a < COUNT(edges); a++)
        for (b = 0; b < COUNT(edges); b++)
            for (carry = 0; carry <= C; carry += C) {
                own.state[AVM_MBR] = lent.state[AVM_MBR] = edges[a];
                own.state[AVM_IVEC] = lent.state[AVM_IVEC] = edges[b];
                own.state[AVM_PSW] = lent.state[AVM_PSW] = carry;
                expect_same_answer("engine", call_run(&engine, &lent), call_run(&simulator, &own));
                expect_same_places("engine", &lent, &own);
            }
}

static void every_function_on_edges(void)
{
    struct microword word = loading_all_flags(of_mbr_and_ivec(ALU_NOP));
    int csrc;

    word.trgt = TRGT_PC;
    for (word.alu = 0; word.alu < ALU_CODES; word.alu++)
        for (word.shft = SHFT_SHL; word.shft <= SHFT_NSH; word.shft++)
            for (csrc = 0; csrc <= 1; csrc++) {
                word.csrc = csrc;
                prepare(word, 0, 0, 0);
                compare_on_edges();
            }
}

/* n and z are the ALU's: 80000000 is negative and 1 is not zero, whatever the shift leaves of them. */
static const struct { unsigned shft; uint32_t value, result, flags; } shifts[] = {
    {SHFT_SHL, 0x80000000, 0x00000000, C | N},
    {SHFT_SHL, 0x40000001, 0x80000002, 0},
    {SHFT_SHR, 0x00000001, 0x00000000, C},
    {SHFT_SHR, 0x80000000, 0x40000000, N},
    {SHFT_ASR, 0x80000001, 0xC0000000, C | N},
    {SHFT_ASR, 0x40000000, 0x20000000, 0},
    {SHFT_NSH, 0x80000001, 0x80000001, N},
    {SHFT_NSH, 0x00000000, 0x00000000, Z},
};

static void shifts_and_their_flags(void)
{
    size_t k;

    for (k = 0; k < COUNT(shifts); k++) {
        struct microword word = loading_all_flags(of_mbr_and_ivec(ALU_NOP));

        stand_at_row(k);
        word.shft = shifts[k].shft;
        word.trgt = TRGT_PC;
        prepare(word, shifts[k].value, 0, SM | C | V);
        after.state[AVM_PC] = shifts[k].result;
        after.state[AVM_PSW] = SM | shifts[k].flags;
        check_run(&before, &after, done(1, 1));
    }
}

/* 0 - 1 is negative and borrows, so each flag of the ALU differs from the PSW's C | V | Z. The shifter's carry is the top bit of FFFFFFFF. */
static const struct { bool ld_c, csrc, ld_v, ld_n, ld_z; uint32_t flags; } loads[] = {
    {false, true, false, false, false, C | V | Z},
    {true, true, false, false, false, V | Z},
    {true, false, false, false, false, C | V | Z},
    {false, false, true, false, false, C | Z},
    {false, true, false, true, false, C | V | N | Z},
    {false, false, false, false, true, C | V},
};

static void flags_are_loaded_one_by_one(void)
{
    size_t k;

    for (k = 0; k < COUNT(loads); k++) {
        struct microword word = of_mbr_and_ivec(ALU_SUB);

        stand_at_row(k);
        word.shft = SHFT_SHL;
        word.ld_c = loads[k].ld_c;
        word.csrc = loads[k].csrc;
        word.ld_v = loads[k].ld_v;
        word.ld_n = loads[k].ld_n;
        word.ld_z = loads[k].ld_z;
        prepare(word, 0, 1, C | V | Z);
        after.state[AVM_PSW] = loads[k].flags;
        check_run(&before, &after, done(1, 1));
    }
}

static const struct { uint32_t code, flags; bool jumps; } jumps[] = {
    /* the scope's examples */
    {0, C, true}, {1, C, false}, {8, C, false}, {8, C | Z, true}, {10, N | V, false}, {12, 0, true}, {15, 0, true}, {16, 0, true},
    /* code 13 is less or equal, code 9 is higher */
    {13, 0, false}, {13, Z, true}, {13, N, true}, {13, N | V, false}, {9, C, true}, {9, 0, false}, {9, C | Z, false},
    /* the others, once or twice each */
    {2, V, true}, {3, V, false}, {4, N, true}, {5, N, false}, {6, Z, true}, {7, Z, false}, {11, N, false}, {11, N | V, true},
    {12, Z, false}, {12, V, false}, {14, 0, true}, {17, 0, true}, {31, C, true},
};

/* The same word loads all flags from 1234, which clears them: the flags before it decide. */
static void prepare_jump(uint32_t code, uint32_t flags)
{
    struct microword word = loading_all_flags(of_mbr_and_ivec(ALU_NOP));

    word.trgt = TRGT_PCJ;
    prepare(word, 0x1234, 0, flags);
    before.state[AVM_IR] = after.state[AVM_IR] = code << 21;
    after.state[AVM_PSW] = 0;
}

static void jump_codes(void)
{
    size_t k;

    for (k = 0; k < COUNT(jumps); k++) {
        stand_at_row(k);
        prepare_jump(jumps[k].code, jumps[k].flags);
        if (jumps[k].jumps)
            after.state[AVM_PC] = 0x1234;
        check_run(&before, &after, done(1, 1));
    }
}

static void every_jump_code_with_every_flag(void)
{
    uint32_t code, flags;

    for (code = 0; code < 32; code++)
        for (flags = 0; flags < 16; flags++) {
            struct places own, lent;

            prepare_jump(code, flags);
            lent = lend(&before, AT_END);
            own = places_in(&before);
            expect_same_answer("engine", call_run(&engine, &lent), call_run(&simulator, &own));
            expect_same_places("engine", &lent, &own);
        }
}

enum { NONE = 0 };

/* The sm that the microcycle began with decides, also where the same word sets or clears it. */
static const struct { uint32_t psw, new_psw; unsigned trgt; uint32_t dest; bool s_sm, c_sm; unsigned written; } writes[] = {
    {0, 0, TRGT_REG_FILE, 7, false, false, NONE},
    {0, 0, TRGT_REG_FILE, 8, false, false, 8},
    {0, 0, TRGT_REG_FILE, 1, false, false, NONE},
    {0, 0, TRGT_REG_FILE, 31, false, false, 31},
    {0, 0, TRGT_REG_FILE, 0, false, false, NONE},
    {SM, SM, TRGT_REG_FILE, 0, false, false, NONE},
    {SM, SM, TRGT_REG_FILE, 1, false, false, 1},
    {SM, SM, TRGT_REG_FILE, 7, false, false, 7},
    {SM, SM, TRGT_REG_FILE, 8, false, false, 8},
    {0, 0, TRGT_SSP, 9, false, false, NONE},
    {SM, SM, TRGT_SSP, 9, false, false, 1},
    {0, SM, TRGT_REG_FILE, 7, true, false, NONE},
    {0, SM, TRGT_SSP, 9, true, false, NONE},
    {SM, 0, TRGT_REG_FILE, 7, false, true, 7},
    {SM, 0, TRGT_SSP, 9, false, true, 1},
};

static void register_rule(void)
{
    size_t k;

    for (k = 0; k < COUNT(writes); k++) {
        struct microword word = of_mbr_and_ivec(ALU_NOP);

        stand_at_row(k);
        word.trgt = writes[k].trgt;
        word.s_sm = writes[k].s_sm;
        word.c_sm = writes[k].c_sm;
        prepare(word, 5, 0, writes[k].psw);
        before.state[AVM_IR] = after.state[AVM_IR] = writes[k].dest << 21;
        after.state[AVM_PSW] = writes[k].new_psw;
        if (writes[k].written != NONE)
            after.registers[writes[k].written] = 5;
        check_run(&before, &after, done(1, 1));
    }
}

/* A whole word counts with sm set, and then the single bits do not. Without it they count, although the target is the PSW. Set wins. */
static const struct { uint32_t psw; unsigned trgt; bool s_sm, c_sm, s_ie, c_ie; uint32_t value, new_psw; } status_words[] = {
    {SM, TRGT_PSW, false, false, false, false, 0xFFFFFFFF, 0x3F},
    {SM | IE | Z, TRGT_PSW, false, false, false, false, 0xFFFFFFC0, 0},
    {SM, TRGT_PSW, true, false, true, false, 0x00000105, 0x05},
    {0, TRGT_PSW, false, false, false, false, 0xFFFFFFFF, 0},
    {IE | C | V, TRGT_PSW, false, false, false, false, 0, IE | C | V},
    {IE, TRGT_PSW, true, false, false, true, 0xFFFFFFFF, SM},
    {0, TRGT_PSW, false, false, true, false, 0, IE},
    {0, TRGT_NOREG, true, true, true, true, 0, SM | IE},
    {SM | IE, TRGT_NOREG, true, true, true, true, 0, SM | IE},
    {SM | IE, TRGT_NOREG, false, true, false, true, 0, 0},
    {SM | IE, TRGT_NOREG, false, true, false, false, 0, IE},
    {SM | IE, TRGT_NOREG, false, false, false, true, 0, SM},
    {N | 0xFFFFFF00, TRGT_NOREG, false, false, false, false, 0, N},
};

static void status_word(void)
{
    size_t k;

    for (k = 0; k < COUNT(status_words); k++) {
        struct microword word = of_mbr_and_ivec(ALU_NOP);

        stand_at_row(k);
        word.trgt = status_words[k].trgt;
        word.s_sm = status_words[k].s_sm;
        word.c_sm = status_words[k].c_sm;
        word.s_ie = status_words[k].s_ie;
        word.c_ie = status_words[k].c_ie;
        prepare(word, status_words[k].value, 0, status_words[k].psw);
        after.state[AVM_PSW] = status_words[k].new_psw;
        check_run(&before, &after, done(1, 1));
    }
}

const struct test word_tests[] = {
    {"c and v follow the true sum, c after a subtraction means nothing borrowed, subc takes the carry bit away", arithmetic_and_its_flags},
    {"every ALU function and shift on pairs of edge words equals the second simulator's", every_function_on_edges},
    {"a shift's carry is the bit shifted out, n and z come from before the shift", shifts_and_their_flags},
    {"each flag is loaded or kept by its own bit, CSRC 1 takes the ALU's carry and 0 the shifter's", flags_are_loaded_one_by_one},
    {"jump codes are the scope's, by the flags before the microcycle; fields 14 to 31 always jump", jump_codes},
    {"all 32 jump codes with all 16 flag settings equal the second simulator's", every_jump_code_with_every_flag},
    {"register 0 is never written, 1 to 7 and SSP only with sm set before the microcycle", register_rule},
    {"a whole PSW is written only with sm set and keeps six bits; else single bits, set before clear", status_word},
    {NULL, NULL},
};
