/* Runs of small microprograms, among them the words that the source prints. Expected states are worked out by hand from the definitions of
   the phases (pp. 110-114) and of the micro level (pp. 126-130). */
#include "hand.h"

static struct inputs before, after;

/* The printed words (pp. 124-126), packed by table 5.12; all others are NOOP_u1, which only goes to 0:

               AMUX SHFT ALU  MAR MBR PMUX SRCA SRCB TRGT  PSW bits        RD COND ADDR
       FETCH    0   11  1010   1   0   1   101  10   110   none            1  011  110001
       ISSUE    1   11  1010   0   0   0   101  10   011   none            0  000  000000
       DECODE   0   11  0010   0   0   0   101  10   100   none            0  010  000000
       NOOP_u1  0   11  1010   0   0   0   101  10   110   none            0  001  000000
       JMP_u1   0   11  0000   0   0   0   000  10   101   none            0  001  000000
       ADD_u1   0   11  0000   0   0   0   000  00   000   c v n z, CSRC   0  001  000000 */
static void start_with_printed_words(uint32_t instruction)
{
    size_t place;

    start(&before);
    before.words = 64;
    for (place = 0; place < 64; place++)
        before.program[place] = 0x742D800040;
    before.program[0] = 0x756D8004F1;
    before.program[1] = 0xF42CC00000;
    before.program[2] = 0x642D000080;
    before.program[4] = 0x6005400040;
    before.program[20] = 0x600003E040;
    before.memory[3] = instruction; /* PC is 3 */
}

/* ADD 9, 10, 11: opcode 16, so 010000 01001 01010 01011 and eleven zeros. R10 + R11 = FFFFFFFF + 1 = 0 with c and z. */
static void printed_add(void)
{
    enum { ADD = 0x412A5800 };

    start_with_printed_words(ADD);
    before.registers[10] = 0xFFFFFFFF;
    before.registers[11] = 1;
    before.state[AVM_PSW] = SM | N | V;
    after = before;

    ask(&before, "0"); /* FETCH */
    after.state[AVM_MAR] = 3;
    after.state[AVM_MBR] = ADD;
    after.state[AVM_MPC] = 1;
    check_run(&before, &after, done(1, 0));
    ask(&before, "00"); /* ISSUE */
    after.state[AVM_IR] = ADD;
    after.state[AVM_MPC] = 2;
    check_run(&before, &after, done(2, 0));
    ask(&before, "000"); /* DECODE: 4 + 16 */
    after.state[AVM_PC] = 4;
    after.state[AVM_MPC] = 20;
    check_run(&before, &after, done(3, 0));
    ask(&before, "0000"); /* ADD_u1 */
    after.registers[9] = 0;
    after.state[AVM_PSW] = SM | C | Z;
    after.state[AVM_MPC] = 0;
    check_run(&before, &after, done(4, 1));
}

/* JMP 6, 12, 8001: jump to R12 + 8001 if z. The immediate is widened with zeros, and bit 31 of the word is ignored. */
static void printed_jmp(void)
{
    static const uint32_t instructions[] = {0x00CC8001, 0x80CC8001};
    static const struct { uint32_t psw, pc; } rows[] = {{IE | Z, 0x10008001}, {IE | C | N | V, 4}};
    size_t k, row;

    for (k = 0; k < COUNT(instructions); k++)
        for (row = 0; row < COUNT(rows); row++) {
            start_with_printed_words(instructions[k]);
            before.registers[12] = 0x10000000;
            before.state[AVM_PSW] = rows[row].psw;
            ask(&before, "0000");
            after = before;
            after.state[AVM_MAR] = 3;
            after.state[AVM_MBR] = after.state[AVM_IR] = instructions[k];
            after.state[AVM_PC] = rows[row].pc;
            check_run(&before, &after, done(4, 1));
        }
}

/* The instruction is the no-operation of opcode 12: FETCH, ISSUE, DECODE, word 16, and word 0 again. Word 49 is a NOOP here. */
enum { NOOP = 0x30000000 };

static const struct { const char *bytes; uint32_t psw, mpc, pc; bool issued; uint64_t steps; } requests[] = {
    {"1", IE, 49, 3, false, 0},
    {"3", IE, 49, 3, false, 0},
    {"1", SM, 1, 3, false, 0},
    {"3", SM, 1, 3, false, 0},
    {"0", IE, 1, 3, false, 0},
    {"2", IE, 1, 3, false, 0},
    {"10", IE, 0, 3, false, 1},
    {"0111", IE, 0, 4, true, 1},
    {"0333", IE, 0, 4, true, 1},
    {"2222", IE, 0, 4, true, 1},
};

static void requests_count_at_fetch_alone(void)
{
    size_t k;

    for (k = 0; k < COUNT(requests); k++) {
        stand_at_row(k);
        start_with_printed_words(NOOP);
        before.state[AVM_PSW] = requests[k].psw;
        ask(&before, requests[k].bytes);
        after = before;
        after.state[AVM_MAR] = 3;
        after.state[AVM_MBR] = NOOP;
        after.state[AVM_IR] = requests[k].issued ? NOOP : before.state[AVM_IR];
        after.state[AVM_MPC] = requests[k].mpc;
        after.state[AVM_PC] = requests[k].pc;
        check_run(&before, &after, done(before.bytes, requests[k].steps));
    }
}

/* Requests at ISSUE, DECODE and the instruction's word, and none at the next FETCH: that one goes on to word 1. */
static void a_request_is_not_kept(void)
{
    start_with_printed_words(NOOP);
    before.memory[4] = 0x12345678;
    before.state[AVM_PSW] = IE;
    ask(&before, "01110");
    after = before;
    after.state[AVM_PC] = after.state[AVM_MAR] = 4;
    after.state[AVM_IR] = NOOP;
    after.state[AVM_MBR] = 0x12345678;
    after.state[AVM_MPC] = 1;
    check_run(&before, &after, done(5, 1));
}

/* IR is 012ADD05: destination 9, source A 10, source B 27, immediate DD05. MBR is D0000000 and IVEC E0000000. */
static const struct { bool amux; unsigned alu, srca, srcb; uint32_t result; } sources[] = {
    {false, ALU_NOP, SRCA_REG_FILE, SRCB_IR, 0xB000000A},
    {false, ALU_NOP, SRCA_REG_DEST, SRCB_IR, 0xB0000009},
    {false, ALU_NOP, SRCA_SSP, SRCB_IR, 0xB0000001},
    {false, ALU_NOP, SRCA_PSW, SRCB_IR, SM | C},
    {false, ALU_NOP, SRCA_C255, SRCB_IR, 255},
    {false, ALU_NOP, SRCA_PC, SRCB_IR, 3},
    {true, ALU_NOP, SRCA_C255, SRCB_IR, 0xD0000000},
    {true, ALU_ADD, SRCA_PC, SRCB_REG_FILE, 0x8000001B},
    {true, ALU_ADD, SRCA_PC, SRCB_IVEC, 0xB0000000},
    {true, ALU_ADD, SRCA_PC, SRCB_IR, 0xD000DD05},
};

static void every_source(void)
{
    size_t k;

    for (k = 0; k < COUNT(sources); k++) {
        struct microword word = idle();

        stand_at_row(k);
        word.amux = sources[k].amux;
        word.alu = sources[k].alu;
        word.srca = sources[k].srca;
        word.srcb = sources[k].srcb;
        word.trgt = TRGT_PC;
        start(&before);
        before.program[0] = pack(word);
        before.state[AVM_IR] = 0x012ADD05;
        before.state[AVM_PSW] = SM | C;
        after = before;
        after.state[AVM_PC] = sources[k].result;
        check_run(&before, &after, done(1, 1));
    }
}

/* The result is MBR's 8000000F. The jump field is 9, "higher", which holds with c and without z. */
static void every_target(void)
{
    unsigned trgt;

    for (trgt = 0; trgt < TRGT_CODES; trgt++) {
        struct microword word = idle();

        word.amux = true;
        word.trgt = trgt;
        start(&before);
        before.program[0] = pack(word);
        before.state[AVM_IR] = 9 << 21;
        before.state[AVM_PSW] = SM | C;
        before.state[AVM_MBR] = 0x8000000F;
        after = before;
        switch (trgt) {
        case TRGT_REG_FILE: after.registers[9] = 0x8000000F; break;
        case TRGT_SSP: after.registers[1] = 0x8000000F; break;
        case TRGT_PSW: after.state[AVM_PSW] = 0x0F; break;
        case TRGT_IR: after.state[AVM_IR] = 0x8000000F; break;
        case TRGT_PC: after.state[AVM_PC] = 0x8000000F; break;
        case TRGT_PCJ: after.state[AVM_PC] = 0x8000000F; break;
        }
        check_run(&before, &after, done(1, 1));
    }
}

/* PC is 3, MAR 5, MBR D0000000, and the result 255. PMUX loads MAR before memory is used, the result only after. */
static const struct { bool mar, pmux, mbr, rd, wr; uint32_t new_mar, new_mbr; int stored_at; } accesses[] = {
    {false, false, false, true, false, 5, 0xA0000005, -1},
    {false, false, false, false, true, 5, 0xD0000000, 5},
    {false, false, false, true, true, 5, 0xA0000005, 5},
    {false, false, true, false, false, 5, 255, -1},
    {false, false, true, true, false, 5, 0xA0000005, -1},
    {false, false, true, false, true, 5, 255, 5},
    {false, false, true, true, true, 5, 0xA0000005, 5},
    {true, false, false, false, false, 255, 0xD0000000, -1},
    {true, true, false, false, false, 3, 0xD0000000, -1},
    {false, true, false, true, true, 5, 0xA0000005, 5},
    {true, false, false, true, true, 255, 0xA0000005, 5},
    {true, true, false, true, true, 3, 0xA0000003, 3},
    {true, true, true, false, true, 3, 255, 3},
};

static void memory_and_its_registers(void)
{
    size_t k;

    for (k = 0; k < COUNT(accesses); k++) {
        struct microword word = idle();

        stand_at_row(k);
        word.srca = SRCA_C255;
        word.mar = accesses[k].mar;
        word.pmux = accesses[k].pmux;
        word.mbr = accesses[k].mbr;
        word.rd = accesses[k].rd;
        word.wr = accesses[k].wr;
        start(&before);
        before.program[0] = pack(word);
        after = before;
        after.state[AVM_MAR] = accesses[k].new_mar;
        after.state[AVM_MBR] = accesses[k].new_mbr;
        if (accesses[k].stored_at >= 0)
            after.memory[accesses[k].stored_at] = 0xD0000000;
        check_run(&before, &after, done(1, 1));
    }
}

static void addresses_modulo_m(void)
{
    struct microword word = idle();
    uint32_t m;
    size_t k;

    word.wr = word.rd = true;
    for (m = 16; m <= 16384; m *= 2) {
        const struct { uint32_t mar, place; } rows[] = {
            {0, 0}, {m - 1, m - 1}, {m, 0}, {m + 1, 1}, {3 * m + 7, 7}, {0x80000000, 0}, {0xFFFFFFFF, m - 1},
        };

        for (k = 0; k < COUNT(rows); k++) {
            start(&before);
            before.program[0] = pack(word);
            before.m = m;
            before.state[AVM_MAR] = rows[k].mar;
            after = before;
            after.memory[rows[k].place] = 0xD0000000;
            after.state[AVM_MBR] = 0xA0000000u + rows[k].place;
            check_run(&before, &after, done(1, 1));
        }
    }
}

/* Where a microcycle goes; -1 where it would leave a program of that many words. Each word also turns ie and sm round: those that the
   microcycle began with count. */
static const struct { size_t words; uint32_t mpc; unsigned cond, addr; uint32_t opcode, psw; uint8_t request; int next; } ways[] = {
    {64, 63, COND_STEP, 5, 0, 0, 0, 0},
    {63, 62, COND_STEP, 5, 0, 0, 0, -1},
    {63, 61, COND_STEP, 5, 0, 0, 0, 62},
    {1, 0, COND_STEP, 0, 0, 0, 0, -1},
    {6, 2, COND_JMP, 5, 0, 0, 0, 5},
    {5, 2, COND_JMP, 5, 0, 0, 0, -1},
    {64, 2, COND_JMP, 63, 0, 0, 0, 63},
    {5, 2, COND_JOP, 63, 0, 0, 0, 4},
    {4, 2, COND_JOP, 0, 0, 0, 0, -1},
    {36, 2, COND_JOP, 0, 31, 0, 0, 35},
    {36, 2, COND_JOP, 0, 63, 0, 0, 35},
    {35, 2, COND_JOP, 0, 63, 0, 0, -1},
    {64, 2, COND_JOP, 0, 47, 0, 0, 19},
    {8, 2, COND_JINT, 7, 0, IE, 1, 7},
    {8, 2, COND_JINT, 7, 0, SM, 1, 3},
    {8, 2, COND_JINT, 7, 0, 0, 1, 3},
    {8, 2, COND_JINT, 7, 0, IE, 2, 3},
    {3, 2, COND_JINT, 1, 0, IE, 1, 1},
    {3, 2, COND_JINT, 1, 0, IE, 0, -1},
    {64, 63, COND_JINT, 1, 0, IE, 0, 0},
    {8, 2, COND_JSM, 7, 0, SM, 0, 7},
    {8, 2, COND_JSM, 7, 0, IE, 1, 3},
    {8, 2, COND_JSM, 7, 0, 0, 0, 3},
    {7, 2, COND_JSM, 7, 0, SM, 0, -1},
    {64, 63, COND_JSM, 1, 0, IE, 0, 0},
};

static void next_addresses(void)
{
    size_t k;

    for (k = 0; k < COUNT(ways); k++) {
        struct microword word = idle();

        stand_at_row(k);
        word.cond = ways[k].cond;
        word.addr = ways[k].addr;
        word.s_sm = word.s_ie = (ways[k].psw == 0);
        word.c_sm = word.c_ie = (ways[k].psw != 0);
        start(&before);
        before.words = ways[k].words;
        before.program[ways[k].mpc] = pack(word);
        before.state[AVM_MPC] = ways[k].mpc;
        before.state[AVM_IR] = ways[k].opcode << 26;
        before.state[AVM_PSW] = ways[k].psw;
        before.requests[0] = ways[k].request;
        after = before;
        if (ways[k].next < 0) {
            check_run(&before, &after, left(0, 0));
        } else {
            after.state[AVM_MPC] = (uint32_t)ways[k].next;
            after.state[AVM_PSW] = ways[k].psw == 0 ? SM | IE : 0;
            check_run(&before, &after, done(1, ways[k].next == 0));
        }
    }
}

/* A return is counted where MPC is 0 after a microcycle, not where it was 0 before. One word leads to itself, two lead to each other. */
static const struct { size_t words; uint32_t mpc; size_t bytes; uint64_t steps; uint32_t new_mpc; } rings[] = {
    {1, 0, 0, 0, 0}, {1, 0, 1, 1, 0}, {1, 0, 5, 5, 0},
    {2, 0, 1, 0, 1}, {2, 0, 2, 1, 0}, {2, 0, 5, 2, 1},
    {2, 1, 0, 0, 1}, {2, 1, 1, 1, 0}, {2, 1, 5, 3, 0},
};

static void returns(void)
{
    size_t k;

    for (k = 0; k < COUNT(rings); k++) {
        struct microword word = idle();

        stand_at_row(k);
        word.cond = rings[k].words == 1 ? COND_JMP : COND_STEP;
        start(&before);
        before.words = rings[k].words;
        before.program[0] = pack(word);
        before.state[AVM_MPC] = rings[k].mpc;
        before.bytes = rings[k].bytes;
        after = before;
        after.state[AVM_MPC] = rings[k].new_mpc;
        check_run(&before, &after, done(rings[k].bytes, rings[k].steps));
    }
}

/* Two words that lead to each other: every second microcycle of the 300,000 is a return. */
static void long_runs(void)
{
    enum { MANY = 300000 };
    static uint8_t many[MANY];
    struct microword word = idle();
    struct places places;

    word.cond = COND_STEP;
    start(&before);
    before.words = 2;
    before.program[0] = pack(word);
    places = lend(&before, AT_END);
    places.requests = many;
    places.bytes = MANY;
    expect_same_answer("engine", call_run(&engine, &places), done(MANY, MANY / 2));
    many[MANY - 1] = 4;
    expect_same_answer("engine", call_run(&engine, &places), refused(7, MANY - 1));
}

const struct test program_tests[] = {
    {"the printed FETCH, ISSUE, DECODE and ADD_u1 do an ADD, microcycle by microcycle", printed_add},
    {"the printed JMP_u1 jumps on its condition, the immediate is widened with zeros, bit 31 is ignored", printed_jmp},
    {"a request counts with ie set and in the fetch microcycle alone, reset changes nothing", requests_count_at_fetch_alone},
    {"a request between fetches is not kept for the next one", a_request_is_not_kept},
    {"every source gives its own word: SSP is register 1, C255 is 255, IVEC is used as it is", every_source},
    {"every target takes the result and nothing else changes", every_target},
    {"RD reads the old word, WR stores the old MBR, a MAR loaded from PC counts and one from the result does not", memory_and_its_registers},
    {"an address is taken modulo M, for every legal M", addresses_modulo_m},
    {"next addresses are the sequencer's, by the ie and sm before the microcycle: step from 63 is 0, outside is 8", next_addresses},
    {"returns are the microcycles after which MPC is 0", returns},
    {"counts and places of a run go beyond 16 bits", long_runs},
    {NULL, NULL},
};
