/* The published microprogram: the words that are known (pp. 83, 124-130, 150-158), and what its microcycles add up to. */
#include "hand.h"

static struct inputs before, after;

enum { NOOP_U1 = 3 };

static void expect_word(uint64_t address, uint64_t want)
{
    uint64_t got = avm_published(address);

    expect(got == want, "word %llu is %010llX, not %010llX", (unsigned long long)address, (unsigned long long)got, (unsigned long long)want);
}

/* The words that the source prints, packed as program_tests.c shows, and NOOP_u1, which it names. */
static void known_words(void)
{
    static const struct { uint64_t address, word; } rows[] = {
        {0, 0x756D8004F1}, /* FETCH   */
        {1, 0xF42CC00000}, /* ISSUE   */
        {2, 0x642D000080}, /* DECODE  */
        {3, 0x742D800040}, /* NOOP_u1 */
        {4, 0x6005400040}, /* JMP_u1  */
        {20, 0x600003E040}, /* ADD_u1 */
    };
    size_t k;

    for (k = 0; k < COUNT(rows); k++)
        expect_word(rows[k].address, rows[k].word);
}

/* Opcodes 12, 13 and 31 have their words at 16, 17 and 35; 53 words are used. */
static void no_operations(void)
{
    static const uint64_t opcodes[] = {16, 17, 35};
    unsigned all = 0;
    uint64_t k;

    for (k = 0; k < COUNT(opcodes); k++)
        expect_word(opcodes[k], avm_published(NOOP_U1));
    for (k = 53; k < 64; k++)
        expect_word(k, avm_published(NOOP_U1));
    for (k = 0; k < 64; k++)
        all += avm_published(k) == avm_published(NOOP_U1);
    expect(all == 15, "%u words are NOOP_u1", all);
}

static void every_word(void)
{
    uint64_t k;

    for (k = 0; k < 64; k++) {
        struct microword word = microword_fields(avm_published(k));

        expect(microword_is_legal(avm_published(k)), "word %llu is not legal", (unsigned long long)k);
        expect(word.iack == (k == 49), "word %llu has IACK %d", (unsigned long long)k, word.iack);
        expect(!word.ftch, "word %llu has FTCH", (unsigned long long)k);
    }
}

/* SRCB without a second operand, ADDR without a jump, CSRC without LD.C, SRCA beside MBR as A input, PMUX without MAR. */
static bool unused_fields_are_as_in_fetch(struct microword word)
{
    bool reads_b = word.alu != ALU_INC && word.alu != ALU_DEC && word.alu != ALU_BNOT && word.alu != ALU_NOP;
    bool reads_addr = word.cond != COND_STEP && word.cond != COND_JOP;

    return (reads_b || word.srcb == SRCB_IR) && (reads_addr || word.addr == 0) && (word.ld_c || !word.csrc) &&
           (!word.amux || word.srca == SRCA_PC) && (word.mar || !word.pmux);
}

static void unused_fields(void)
{
    uint64_t k;

    for (k = 0; k < 64; k++)
        expect(unused_fields_are_as_in_fetch(microword_fields(avm_published(k))), "word %llu has more than it uses", (unsigned long long)k);
}

static void addresses_modulo_64(void)
{
    uint64_t k;

    for (k = 0; k < 64; k++) {
        expect_word(k + 64, avm_published(k));
        expect_word(k + 0x100000000, avm_published(k));
        expect_word(k + 0xFFFFFFFFFFFFFFC0, avm_published(k));
    }
}

/* In microcycles: fetch, issue, decode and one more, and what stacks and memory add. */
static unsigned length_of(unsigned opcode)
{
    switch (opcode) {
    case OP_CALL: case OP_INT: return 7;
    case OP_RTI: case OP_RTN: case OP_LD: case OP_LDI: case OP_ST: case OP_STI: return 6;
    default: return 4;
    }
}

/* One byte too few is no return, and one too many begins the next step. */
static void expect_length(unsigned length)
{
    size_t bytes;

    for (bytes = length - 1; bytes <= length + 1; bytes++) {
        struct places lent = lend(&before, AT_END);

        lent.bytes = bytes;
        expect_same_answer("engine", call_run(&engine, &lent), done(bytes, bytes >= length));
    }
}

/* With ie clear and a request up, with ie set and none, and in both modes, so that codes jump and do not. */
static void lengths_of_instructions(void)
{
    static const struct { uint32_t psw; const char *requests; } rows[] = {
        {0, "11111111"}, {SM, "33333333"}, {IE | C | Z, "02222222"}, {SM | IE | N | V, "01111111"},
    };
    unsigned opcode, row;

    for (opcode = 0; opcode < 64; opcode++)
        for (row = 0; row < COUNT(rows); row++) {
            stand_at_row(opcode);
            start_at_instruction(&before, format_2(opcode, 9, 10, 0x20));
            publish(&before);
            before.state[AVM_PSW] = rows[row].psw;
            ask(&before, rows[row].requests);
            expect_length(length_of(opcode % 32));
        }
}

static void length_of_the_interrupt_step(void)
{
    static const uint32_t modes[] = {IE, SM | IE};
    size_t k;

    for (k = 0; k < COUNT(modes); k++) {
        start_at_instruction(&before, format_2(OP_CALL, 9, 10, 0x20));
        publish(&before);
        before.state[AVM_PSW] = modes[k];
        ask(&before, "100000");
        expect_length(5);
        ask(&before, "311111");
        expect_length(5);
    }
}

/* ADD 9, 10, 11 at 3 and ADD 9, 9, 11 at 4, that is 100 + 1 and 1 more, in user mode with ie set. SSP is 6. */
static void start_two_adds(const char *requests)
{
    start_at_instruction(&before, format_1(OP_ADD, 9, 10, 11));
    publish(&before);
    before.memory[4] = format_1(OP_ADD, 9, 9, 11);
    before.registers[1] = 6;
    before.registers[10] = 100;
    before.registers[11] = 1;
    before.state[AVM_PSW] = IE;
    before.state[AVM_IVEC] = 0x12345678;
    ask(&before, requests);
    after = before;
}

/* The same as steps, which leave IR, MAR and MBR as lent. */
static void check_as_steps(const char *requests)
{
    ask(&before, requests);
    after.state[AVM_IR] = before.state[AVM_IR];
    after.state[AVM_MAR] = before.state[AVM_MAR];
    after.state[AVM_MBR] = before.state[AVM_MBR];
    check_steps(&before, &after, done(0, before.bytes));
}

/* A request in any microcycle but the two at fetch: eight microcycles, two steps, and the state of no request at all, IR, MAR and MBR too. */
static void requests_between_fetches(void)
{
    static const char *const rows[] = {
        "00000000", "01000000", "00100000", "00010000", "00000100", "00000001", "01110111", "03330333", "22222222",
    };
    size_t k;

    for (k = 0; k < COUNT(rows); k++) {
        stand_at_row(k);
        start_two_adds(rows[k]);
        after.registers[9] = 102;
        after.state[AVM_PC] = 5;
        after.state[AVM_MAR] = 4;
        after.state[AVM_MBR] = after.state[AVM_IR] = before.memory[4];
        check_run(&before, &after, done(8, 2));
        check_as_steps("00");
    }
}

/* The interrupt step leaves the stored PC in MBR and its place in MAR. */
static void expect_interrupted(uint32_t at_pc)
{
    after.memory[6] = at_pc;
    after.registers[1] = 7;
    after.state[AVM_PSW] = SM;
    after.state[AVM_PC] = 0x78;
    after.state[AVM_MAR] = 6;
    after.state[AVM_MBR] = at_pc;
}

/* The same request at the first fetch takes the interrupt step, and at the second fetch takes it after one ADD. */
static void requests_at_fetch(void)
{
    static const char *const first[] = {"10000", "30000", "11111", "32323"};
    static const char *const second[] = {"000010000", "222230000", "011110000"};
    size_t k;

    for (k = 0; k < COUNT(first); k++) {
        stand_at_row(k);
        start_two_adds(first[k]);
        expect_interrupted(3);
        check_run(&before, &after, done(5, 1));
        check_as_steps("1");
    }
    for (k = 0; k < COUNT(second); k++) {
        stand_at_row(k);
        start_two_adds(second[k]);
        expect_interrupted(4);
        after.registers[9] = 101;
        after.state[AVM_IR] = before.memory[3];
        check_run(&before, &after, done(9, 2));
        check_as_steps("01");
    }
}

const struct test published_tests[] = {
    {"the published microprogram has the printed words and NOOP_u1 in their places", known_words},
    {"words 53 to 63 and those of the three no-operations are NOOP_u1, 15 in all", no_operations},
    {"every published word is legal, IACK stands in word 49 alone and FTCH nowhere", every_word},
    {"fields that a published word does not use are as in the printed FETCH", unused_fields},
    {"an address of the published microprogram is taken modulo 64", addresses_modulo_64},
    {"an instruction is back at fetch after 4 microcycles, CALL and INT after 7, returns, loads and stores after 6", lengths_of_instructions},
    {"the interrupt step is back at fetch after 5 microcycles", length_of_the_interrupt_step},
    {"a request raised between two fetches changes nothing, not even one microcycle after a fetch", requests_between_fetches},
    {"the same request at a fetch takes the interrupt step there", requests_at_fetch},
    {NULL, NULL},
};
