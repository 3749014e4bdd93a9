/* Every refusal, alone and with others, and what it leaves behind. */
#include "hand.h"

#include <string.h>

static struct inputs before, after;

/* A program of six words and six request bytes. The PSW has bits that mean nothing and the latches words that are neither 0 nor 1: a refused
   call gives them back so. */
static void start_to_refuse(void)
{
    start(&before);
    before.words = before.bytes = 6;
    before.state[AVM_PSW] = 0xDEADBEC0 | SM | Z;
    before.latches[AVM_IREQ] = 0x55;
    before.latches[AVM_IACK] = 0xAA;
}

static void both_refuse(avm_answer want)
{
    check_run(&before, &before, want);
    check_phase(&before, &before, want, 0);
}

/* What a call leaves that does phase one, or no microcycle, or only idle ones. */
static void both_take(void)
{
    after = before;
    after.state[AVM_PSW] &= 0x3F;
    check_run(&before, &after, done(before.bytes, before.bytes));
    after.latches[AVM_IREQ] = 0;
    after.latches[AVM_IACK] = before.latches[AVM_IACK] != 0;
    after.mir = before.program[before.state[AVM_MPC]];
    after.phase = 1;
    check_phase(&before, &after, done(0, 0), 0);
}

static void the_scopes_lengths(void)
{
    static const size_t bad[] = {8, 24}, good[] = {16, 16384};
    size_t k;

    for (k = 0; k < COUNT(bad); k++) {
        start_to_refuse();
        before.m = bad[k];
        both_refuse(refused(1, 0));
    }
    for (k = 0; k < COUNT(good); k++) {
        start_to_refuse();
        before.m = good[k];
        both_take();
    }
}

/* A part of one block is lent each time. */
static void every_memory_length(void)
{
    static const size_t legal[] = {16, 32, 64, 128, 256, 512, 1024, 2048, 4096, 8192, 16384};
    struct places places;
    size_t next = 0;

    start_to_refuse();
    before.bytes = 0;
    places = lend(&before, AT_END);
    places.memory = before.memory;
    for (places.m = 0; places.m <= MEMORY_ROOM; places.m++) {
        bool is_legal = next < COUNT(legal) && places.m == legal[next];

        next += is_legal;
        expect_same_answer("engine", call_run(&engine, &places), is_legal ? done(0, 0) : refused(1, 0));
        *places.phase = 2;
        expect_same_answer("engine", call_phase(&engine, &places, 0), is_legal ? done(0, 0) : refused(1, 0));
    }
}

static void lengths_and_register_0(void)
{
    static const size_t lengths[] = {0, 1, 15, 17, 32768}, counts[] = {0, 1, 31, 33, 64}, programs[] = {0, 65, 128, 1024};
    static const uint32_t values[] = {1, 0x80000000};
    size_t k;

    for (k = 0; k < COUNT(lengths); k++) {
        start_to_refuse();
        before.m = lengths[k];
        both_refuse(refused(1, 0));
    }
    for (k = 0; k < COUNT(counts); k++) {
        start_to_refuse();
        before.count = counts[k];
        both_refuse(refused(2, 0));
    }
    for (k = 0; k < COUNT(values); k++) {
        start_to_refuse();
        before.registers[0] = values[k];
        both_refuse(refused(3, 0));
    }
    for (k = 0; k < COUNT(programs); k++) {
        start_to_refuse();
        before.words = programs[k];
        both_refuse(refused(4, 0));
    }
}

/* Zero lengths come with NULL on one side and with a pointer that can't be read on the other. */
static void no_length_with_null(void)
{
    start_to_refuse();
    before.m = before.count = before.words = before.bytes = 0;
    both_refuse(refused(1, 0));
    before.m = 16;
    both_refuse(refused(2, 0));
    before.count = 32;
    both_refuse(refused(4, 0));
    before.words = 64;
    both_take();
}

/* The lowest bit and the width of each field that has codes without a mnemonic, and its highest good code. */
static const struct { unsigned low, width; uint64_t highest; } coded_fields[] = {
    {33, 4, 10}, {27, 3, 5}, {25, 2, 2}, {22, 3, 6}, {6, 3, 4},
};

static void check_microword(uint64_t word, bool legal)
{
    size_t place;

    for (place = 1; place < 6; place += 2) {
        start_to_refuse();
        before.program[place] = word;
        check_walks(&before, legal ? accepted(1) : refused(5, place));
        if (legal)
            both_take();
        else
            both_refuse(refused(5, place));
    }
    start_to_refuse();
    before.bytes = 0;
    before.mir = word;
    if (legal)
        both_take();
    else
        check_phase(&before, &before, refused(5, 6), 0);
}

static void codes_without_a_mnemonic(void)
{
    size_t k;
    uint64_t code;

    for (k = 0; k < COUNT(coded_fields); k++)
        for (code = 0; code < 1u << coded_fields[k].width; code++) {
            uint64_t mask = ((1u << coded_fields[k].width) - 1) * (uint64_t)1 << coded_fields[k].low;

            check_microword((pack(idle()) & ~mask) | code << coded_fields[k].low, code <= coded_fields[k].highest);
        }
}

static void unused_bits(void)
{
    unsigned bit;

    for (bit = 40; bit < 64; bit++)
        check_microword(pack(idle()) | (uint64_t)1 << bit, false);
    check_microword(0xFFFFFFFFFFFFFFFF, false);
}

static void the_lowest_bad_word(void)
{
    start_to_refuse();
    before.program[5] = before.mir = (uint64_t)1 << 40;
    before.program[3] = (uint64_t)1 << 63;
    both_refuse(refused(5, 3));
    before.program[0] = 7 << 6;
    both_refuse(refused(5, 0));
    start_to_refuse();
    before.mir = (uint64_t)1 << 40;
    before.words = 64;
    check_phase(&before, &before, refused(5, 64), 0);
    before.words = 1;
    check_phase(&before, &before, refused(5, 1), 0);
}

static void outside(void)
{
    static const uint32_t addresses[] = {6, 7, 63, 64, 0x100, 0x80000000, 0xFFFFFFFF};
    static const uint32_t phases[] = {4, 5, 7, 255, 256, 0x80000000, 0xFFFFFFFF};
    size_t k;

    for (k = 0; k < COUNT(addresses); k++) {
        start_to_refuse();
        before.state[AVM_MPC] = addresses[k];
        both_refuse(refused(6, 0));
        before.bytes = 0;
        check_run(&before, &before, refused(6, 0));
        for (before.phase = 1; before.phase <= 3; before.phase++)
            check_phase(&before, &before, refused(6, 0), 0);
    }
    for (k = 0; k < COUNT(phases); k++) {
        start_to_refuse();
        before.phase = phases[k];
        check_phase(&before, &before, refused(6, 0), 0);
    }
}

static void bad_requests(void)
{
    static const uint8_t bytes[] = {4, 5, 7, 8, 128, 255};
    size_t k, place;

    for (k = 0; k < COUNT(bytes); k++) {
        for (place = 0; place < 6; place++) {
            start_to_refuse();
            before.requests[5] = 255;
            before.requests[place] = bytes[k];
            check_run(&before, &before, refused(7, place));
        }
        start_to_refuse();
        for (before.phase = 0; before.phase <= 3; before.phase++)
            check_phase(&before, &before, refused(7, 0), bytes[k]);
    }
}

/* Puts fault number 1 to 7 into the inputs; the phase call's request is not among them. */
static void put_fault(unsigned number)
{
    switch (number) {
    case 1: before.m = 24; break;
    case 2: before.count = 31; break;
    case 3: before.registers[0] = 1; break;
    case 4: before.words = 65; break;
    case 5: before.program[2] = before.program[4] = (uint64_t)1 << 50; break;
    case 6: before.state[AVM_MPC] = before.phase = 70; break;
    case 7: before.requests[3] = before.requests[5] = 4; break;
    }
}

/* All 127 sets of faults: the lowest number is the answer. */
static void several_faults(void)
{
    unsigned set, number;

    for (set = 1; set < 128; set++) {
        unsigned lowest = 0;
        uint8_t request = set >> 6 & 1 ? 4 : 0;

        start_to_refuse();
        for (number = 7; number >= 1; number--)
            if (set >> (number - 1) & 1) {
                put_fault(number);
                lowest = number;
            }
        check_run(&before, &before, refused(lowest, lowest == 5 ? 2 : lowest == 7 ? 3 : 0));
        check_phase(&before, &before, refused(lowest, lowest == 5 ? 2 : 0), request);
    }
}

/* The MIR's 5 comes after 4 and the program's words, and before 6 and 7. */
static void a_bad_mir_with_others(void)
{
    start_to_refuse();
    before.mir = 15ull << 33;
    put_fault(6);
    check_phase(&before, &before, refused(5, 6), 4);
    put_fault(5);
    check_phase(&before, &before, refused(5, 2), 4);
    put_fault(4);
    check_phase(&before, &before, refused(4, 0), 4);
}

/* Word 0 comes back to 0 while a request is up and ie is set, and else goes on to word 1. That one would change everything there is, and
   steps out. */
static void start_to_leave(const char *bytes, uint32_t mpc)
{
    struct microword ring = idle(), way_out = idle();

    ring.cond = COND_JINT;
    way_out.cond = COND_STEP;
    way_out.trgt = TRGT_REG_FILE;
    way_out.mar = way_out.pmux = way_out.mbr = way_out.wr = way_out.s_sm = way_out.c_ie = way_out.ld_z = true;
    start_to_refuse();
    before.words = 2;
    before.program[0] = pack(ring);
    before.program[1] = pack(way_out);
    before.state[AVM_MPC] = mpc;
    before.state[AVM_IR] = 9 << 21;
    before.state[AVM_PSW] = 0xDEADBEC0 | IE | Z;
    before.bytes = strlen(bytes);
    memcpy(before.requests, bytes, before.bytes);
    after = before;
}

static void leaving_on_the_first_byte(void)
{
    start_to_leave("", 1);
    before.bytes = 1;
    check_run(&before, &before, left(0, 0));
    start_to_leave("\1\1\1", 1);
    check_run(&before, &before, left(0, 0));
}

/* Three returns, one microcycle to word 1, and then out: with bytes to come, and on the last byte. */
static void leaving_on_a_later_byte(void)
{
    size_t bytes;

    for (bytes = 5; bytes <= 7; bytes++) {
        start_to_leave("\1\3\1\2\1\1\1", 0);
        before.bytes = bytes;
        after.state[AVM_MPC] = 1;
        after.state[AVM_PSW] = IE | Z;
        check_run(&before, &after, left(4, 3));
    }
    before.bytes = 4;
    check_run(&before, &after, done(4, 3));
}

static void no_bytes(void)
{
    start_to_leave("", 1);
    after.state[AVM_PSW] = IE | Z;
    check_run(&before, &after, done(0, 0));
}

const struct test refusal_tests[] = {
    {"M = 8 and 24 are refused with 1, 16 and 16384 are taken", the_scopes_lengths},
    {"of all M from 0 to 32768 exactly the eleven powers of two are taken", every_memory_length},
    {"1, 2, 3 and 4 are answered for lengths and register 0, with everything as lent", lengths_and_register_0},
    {"a zero length may come with NULL", no_length_with_null},
    {"5 is answered for exactly the codes without a mnemonic, in the program and in MIR, by avm_check too", codes_without_a_mnemonic},
    {"5 is answered for every unused bit, by avm_check too", unused_bits},
    {"5 names the lowest bad word, MIR being the word after the last", the_lowest_bad_word},
    {"6 is answered for any MPC or phase number outside, also with no bytes", outside},
    {"7 names the first request byte above 3, and 0 in a phase call", bad_requests},
    {"of all sets of faults 1 to 7 the lowest number is answered", several_faults},
    {"a bad MIR is 5 after 4 and the program's words, before 6 and 7", a_bad_mir_with_others},
    {"8 on the first byte leaves everything as lent, the PSW's other bits too", leaving_on_the_first_byte},
    {"8 on a later byte keeps the completed microcycles and nothing of the refused one", leaving_on_a_later_byte},
    {"no bytes: nothing is done but the PSW's other bits are dropped", no_bytes},
    {NULL, NULL},
};
