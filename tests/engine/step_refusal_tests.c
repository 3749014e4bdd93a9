/* What avm_steps refuses, and what it leaves behind when it is refused and when it is not. */
#include "hand.h"

static struct inputs before, after;

/* Six request bytes, and NOOPs in all of memory. The PSW has bits that mean nothing; IR, MAR, MBR and MPC hold what steps have no use for. */
static void start_to_refuse(void)
{
    size_t place;

    start(&before);
    for (place = 0; place < MEMORY_ROOM; place++)
        before.memory[place] = 0x33FFF800u + (uint32_t)place % 0x800;
    before.bytes = 6;
    before.state[AVM_PSW] = 0xDEADBEC0 | SM | Z;
    before.state[AVM_IR] = before.state[AVM_MAR] = before.state[AVM_MBR] = before.state[AVM_MPC] = 0xFFFFFFFF;
}

static void refuse(avm_answer want)
{
    check_steps(&before, &before, want);
}

static void take(void)
{
    after = before;
    after.state[AVM_PSW] = SM | Z;
    after.state[AVM_PC] += (uint32_t)before.bytes;
    check_steps(&before, &after, done(0, before.bytes));
}

static void the_scopes_lengths(void)
{
    static const size_t bad[] = {0, 1, 8, 15, 17, 24, 32768}, good[] = {16, 16384};
    size_t k;

    for (k = 0; k < COUNT(bad); k++) {
        start_to_refuse();
        before.m = bad[k];
        refuse(refused(1, 0));
    }
    for (k = 0; k < COUNT(good); k++) {
        start_to_refuse();
        before.m = good[k];
        take();
    }
}

/* A part of one block is lent each time. */
static void every_memory_length(void)
{
    static const size_t legal[] = {16, 32, 64, 128, 256, 512, 1024, 2048, 4096, 8192, 16384};
    struct places places;
    size_t next = 0;

    start_to_refuse();
    places = lend(&before, AT_END);
    places.memory = before.memory;
    for (places.m = 0; places.m <= MEMORY_ROOM; places.m++) {
        bool is_legal = next < COUNT(legal) && places.m == legal[next];

        next += is_legal;
        expect_same_answer("engine", call_steps(&engine, &places), is_legal ? done(0, 6) : refused(1, 0));
    }
}

static void registers(void)
{
    static const size_t counts[] = {0, 1, 31, 33, 64};
    static const uint32_t values[] = {1, 0x80000000, 0xFFFFFFFF};
    size_t k;

    for (k = 0; k < COUNT(counts); k++) {
        start_to_refuse();
        before.count = counts[k];
        refuse(refused(2, 0));
    }
    for (k = 0; k < COUNT(values); k++) {
        start_to_refuse();
        before.registers[0] = values[k];
        refuse(refused(3, 0));
    }
}

/* Every place of the six, with a later bad byte too. Bytes of 2 and 3 are a run's, not a step's. */
static void bad_requests(void)
{
    static const uint8_t bytes[] = {2, 3, 4, 5, 128, 129, 254, 255};
    size_t k, place;

    for (k = 0; k < COUNT(bytes); k++)
        for (place = 0; place < 6; place++) {
            start_to_refuse();
            before.requests[0] = 1;
            before.requests[5] = 255;
            before.requests[place] = bytes[k];
            refuse(refused(7, place));
        }
}

/* Puts one of the four faults into the inputs. */
static void put_fault(unsigned number)
{
    switch (number) {
    case 1: before.m = 24; break;
    case 2: before.count = 31; break;
    case 3: before.registers[0] = 1; break;
    case 7: before.requests[3] = before.requests[5] = 2; break;
    }
}

/* All 15 sets of faults. */
static void several_faults(void)
{
    static const unsigned numbers[] = {1, 2, 3, 7};
    unsigned set, k;

    for (set = 1; set < 16; set++) {
        unsigned lowest = 0;

        start_to_refuse();
        for (k = 4; k-- > 0;)
            if (set >> k & 1) {
                put_fault(numbers[k]);
                lowest = numbers[k];
            }
        refuse(refused(lowest, lowest == 7 ? 3 : 0));
    }
}

/* Zero lengths come with NULL on one side and with a pointer that can't be read on the other. */
static void no_length_with_null(void)
{
    start_to_refuse();
    before.m = before.count = before.bytes = 0;
    refuse(refused(1, 0));
    before.m = 16;
    refuse(refused(2, 0));
    before.count = 32;
    take();
}

/* A run would refuse all but the first two with 6. */
static void any_mpc(void)
{
    static const uint32_t addresses[] = {0, 1, 63, 64, 0x80000000, 0xFFFFFFFF};
    size_t k;

    for (k = 0; k < COUNT(addresses); k++) {
        start_to_refuse();
        before.state[AVM_MPC] = addresses[k];
        take();
    }
}

/* The PSW's other bits, with no step to do; a refused call leaves them. */
static void status_word(void)
{
    static const uint32_t words[] = {0xFFFFFFFF, 0xFFFFFFC0, 0x40, 0x80000001, 0x3F};
    size_t k;

    for (k = 0; k < COUNT(words); k++) {
        start_to_refuse();
        before.bytes = 0;
        before.state[AVM_PSW] = words[k];
        after = before;
        after.state[AVM_PSW] = words[k] & 0x3F;
        check_steps(&before, &after, done(0, 0));
        before.registers[0] = 1;
        refuse(refused(3, 0));
    }
}

/* NOOPs throughout: PC goes round memory many times. */
static void long_runs(void)
{
    enum { MANY = 300000 };
    static uint8_t many[MANY];
    struct places places;

    start_to_refuse();
    places = lend(&before, AT_END);
    places.requests = many;
    places.bytes = MANY;
    expect_same_answer("engine", call_steps(&engine, &places), done(0, MANY));
    expect(places.state[AVM_PC] == 3 + MANY, "PC is %u", (unsigned)places.state[AVM_PC]);
    many[MANY - 1] = 2;
    expect_same_answer("engine", call_steps(&engine, &places), refused(7, MANY - 1));
}

const struct test step_refusal_tests[] = {
    {"steps: M = 8 and 24 are refused with 1, 16 and 16384 are taken", the_scopes_lengths},
    {"steps: of all M from 0 to 32768 exactly the eleven powers of two are taken", every_memory_length},
    {"steps: 2 and 3 are answered for the register count and register 0, with everything as lent", registers},
    {"steps: 7 names the first request byte above 1", bad_requests},
    {"steps: of all sets of faults 1, 2, 3 and 7 the lowest number is answered", several_faults},
    {"steps: a zero length may come with NULL", no_length_with_null},
    {"steps: any MPC is taken and given back", any_mpc},
    {"steps: no bytes drop the PSW's other bits and change nothing else, a refused call leaves them", status_word},
    {"steps: counts and places go beyond 16 bits", long_runs},
    {NULL, NULL},
};
