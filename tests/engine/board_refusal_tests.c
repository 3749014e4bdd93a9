/* What the calls on a board refuse: each number, alone and with others, with board and memory as lent. */
#include "hand.h"

static struct inputs before, after;

/* A program of six idle words, and NOOPs in all of memory. The PSW has bits that mean nothing: a refused call gives them back. */
static void start_to_refuse(void)
{
    size_t place;

    start(&before);
    for (place = 0; place < MEMORY_ROOM; place++)
        before.memory[place] = 0x33FFF800u + (uint32_t)place % 0x800;
    before.words = 6;
    before.board.psw = 0xDEADBEC0 | SM | Z;
}

static void refuse_microcycle(avm_answer want, uint8_t request)
{
    check_board_microcycle(&before, &before, want, request);
}

static void refuse_instruction(avm_answer want, uint8_t request)
{
    check_board_instruction(&before, &before, want, request);
}

static void both_refuse(avm_answer want)
{
    refuse_microcycle(want, 0);
    refuse_instruction(want, 0);
}

static void take_microcycle(uint8_t request)
{
    after = before;
    after.board.psw = SM | Z;
    after.board.mpc = 0;
    check_board_microcycle(&before, &after, done(1, 1), request);
}

static void take_instruction(uint8_t request)
{
    after = before;
    after.board.psw = SM | Z;
    after.board.pc++;
    check_board_instruction(&before, &after, done(0, 1), request);
}

static void lengths_of_memory(void)
{
    static const size_t bad[] = {0, 1, 8, 15, 17, 24, 32768}, good[] = {16, 16384};
    size_t k;

    for (k = 0; k < COUNT(bad); k++) {
        start_to_refuse();
        before.m = bad[k];
        both_refuse(refused(1, 0));
    }
    for (k = 0; k < COUNT(good); k++) {
        start_to_refuse();
        before.m = good[k];
        take_microcycle(0);
        take_instruction(0);
    }
}

/* A part of one block is lent each time. */
static void every_length_of_memory(void)
{
    static const size_t legal[] = {16, 32, 64, 128, 256, 512, 1024, 2048, 4096, 8192, 16384};
    struct places places;
    size_t next = 0;

    start_to_refuse();
    places = lend(&before, AT_END);
    places.memory = before.memory;
    for (places.m = 0; places.m <= MEMORY_ROOM; places.m++) {
        bool is_legal = next < COUNT(legal) && places.m == legal[next];

        next += is_legal;
        expect_same_answer("engine", call_board_microcycle(&engine, &places, 0), is_legal ? done(1, 1) : refused(1, 0));
        expect_same_answer("engine", call_board_instruction(&engine, &places, 0), is_legal ? done(0, 1) : refused(1, 0));
    }
}

static void register_0(void)
{
    static const uint32_t values[] = {1, 0x80000000, 0xFFFFFFFF};
    size_t k;

    for (k = 0; k < COUNT(values); k++) {
        start_to_refuse();
        before.board.registers[0] = values[k];
        both_refuse(refused(3, 0));
    }
}

static void lengths_of_the_program(void)
{
    static const size_t bad[] = {0, 65, 66, 128, 1024}, good[] = {1, 64};
    size_t k;

    for (k = 0; k < COUNT(bad); k++) {
        start_to_refuse();
        before.words = bad[k];
        refuse_microcycle(refused(4, 0), 0);
    }
    for (k = 0; k < COUNT(good); k++) {
        start_to_refuse();
        before.words = good[k];
        take_microcycle(0);
    }
}

/* The lowest and the highest unused bit, and for each field with codes that no table names the first of them. The word at MPC is word 0:
   others are never looked up, and are refused all the same. The last word is always bad, so that the lower one must be named. */
static void bad_microwords(void)
{
    static const uint64_t spoiling[] = {
        (uint64_t)1 << 40, (uint64_t)1 << 63, (uint64_t)11 << 33, (uint64_t)6 << 27, (uint64_t)3 << 25, (uint64_t)7 << 22, 5 << 6,
    };
    size_t k, place;

    for (k = 0; k < COUNT(spoiling); k++)
        for (place = 0; place < 6; place++) {
            stand_at_row(k);
            start_to_refuse();
            before.program[5] |= (uint64_t)1 << 50;
            before.program[place] |= spoiling[k];
            refuse_microcycle(refused(5, place), 0);
        }
}

/* A step has no use for MPC. */
static void outside(void)
{
    static const uint32_t addresses[] = {6, 7, 63, 64, 0x100, 0x80000000, 0xFFFFFFFF};
    size_t k;

    for (k = 0; k < COUNT(addresses); k++) {
        stand_at_row(k);
        start_to_refuse();
        before.board.mpc = addresses[k];
        refuse_microcycle(refused(6, 0), 0);
        take_instruction(0);
    }
    before.board.mpc = 5;
    take_microcycle(0);
}

/* ie is clear, so a request that is taken changes nothing. */
static void requests(void)
{
    static const uint8_t bytes[] = {0, 1, 2, 3, 4, 5, 7, 8, 64, 127, 128, 129, 130, 131, 254, 255};
    size_t k;

    start_to_refuse();
    for (k = 0; k < COUNT(bytes); k++) {
        stand_at_row(k);
        if (bytes[k] <= 3)
            take_microcycle(bytes[k]);
        else
            refuse_microcycle(refused(7, 0), bytes[k]);
        if (bytes[k] <= 1)
            take_instruction(bytes[k]);
        else
            refuse_instruction(refused(7, 0), bytes[k]);
    }
}

/* Puts one of the faults 1 to 6 into the inputs; that of the request is not among them. */
static void put_fault(unsigned number)
{
    switch (number) {
    case 1: before.m = 24; break;
    case 3: before.board.registers[0] = 1; break;
    case 4: before.words = 65; break;
    case 5: before.program[2] = before.program[4] = (uint64_t)1 << 50; break;
    case 6: before.board.mpc = 70; break;
    }
}

/* The numbers of a set, by the bits of `set`; a bad request is the last of them. Answers the lowest. */
static unsigned put_faults(const unsigned *numbers, unsigned count, unsigned set)
{
    unsigned lowest = 0;

    start_to_refuse();
    while (count-- > 0)
        if (set >> count & 1) {
            put_fault(numbers[count]);
            lowest = numbers[count];
        }
    return lowest;
}

/* All 63 sets of a microcycle's faults and all 7 of a step's. */
static void several_faults(void)
{
    static const unsigned of_microcycle[] = {1, 3, 4, 5, 6, 7}, of_step[] = {1, 3, 7};
    unsigned set, lowest;

    for (set = 1; set < 64; set++) {
        stand_at_row(set);
        lowest = put_faults(of_microcycle, 6, set);
        refuse_microcycle(refused(lowest, lowest == 5 ? 2 : 0), set >> 5 & 1 ? 4 : 0);
    }
    for (set = 1; set < 8; set++) {
        stand_at_row(set);
        lowest = put_faults(of_step, 3, set);
        refuse_instruction(refused(lowest, 0), set >> 2 & 1 ? 2 : 0);
    }
}

/* Zero lengths come with NULL on one side and with a pointer that can't be read on the other. */
static void no_length_with_null(void)
{
    start_to_refuse();
    before.m = before.words = 0;
    both_refuse(refused(1, 0));
    before.m = 16;
    refuse_microcycle(refused(4, 0), 0);
}

/* A program of three words. The last would change everything there is, MAR in phase three already, and has no way that stays inside. */
static void start_to_leave(unsigned cond, unsigned addr)
{
    struct microword way_out = idle();

    way_out.trgt = TRGT_REG_FILE;
    way_out.mar = way_out.pmux = way_out.mbr = way_out.wr = way_out.s_sm = way_out.c_ie = way_out.ld_z = true;
    way_out.cond = cond;
    way_out.addr = addr;
    start_to_refuse();
    before.words = 3;
    before.program[2] = pack(way_out);
    before.board.ir = 9 << 21;
    before.board.psw = 0xDEADBEC0 | IE | Z;
    before.board.mpc = 2;
}

/* A bad request comes before it. */
static void leaving(void)
{
    static const struct { unsigned cond, addr; } ways[] = {
        {COND_STEP, 0}, {COND_JMP, 3}, {COND_JMP, 63}, {COND_JOP, 0}, {COND_JINT, 3}, {COND_JSM, 3},
    };
    uint8_t request;
    size_t k;

    for (k = 0; k < COUNT(ways); k++) {
        stand_at_row(k);
        start_to_leave(ways[k].cond, ways[k].addr);
        for (request = 0; request <= 3; request++)
            refuse_microcycle(refused(8, 0), request);
        refuse_microcycle(refused(7, 0), 4);
    }
}

const struct test board_refusal_tests[] = {
    {"board: M = 8 and 24 are refused with 1, 16 and 16384 are taken", lengths_of_memory},
    {"board: of all M from 0 to 32768 exactly the eleven powers of two are taken", every_length_of_memory},
    {"board: 3 is answered for register 0, with everything as lent", register_0},
    {"board: 4 is answered for a program of no word or more than 64", lengths_of_the_program},
    {"board: 5 names the lowest bad word", bad_microwords},
    {"board: 6 is answered for any MPC outside, which a step takes", outside},
    {"board: 7 at 0 is answered for requests above 3 of a microcycle and above 1 of a step", requests},
    {"board: of all sets of faults the lowest number is answered", several_faults},
    {"board: a zero length may come with NULL", no_length_with_null},
    {"board: 8 leaves everything as lent, MAR and the PSW's other bits too", leaving},
    {NULL, NULL},
};
