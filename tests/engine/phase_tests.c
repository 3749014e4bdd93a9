/* Single phases: what each loads (pp. 110-114) and that it leaves everything else. */
#include "hand.h"

static struct inputs before, after;

/* Latch words that count as set without being 1, and a PSW with bits that mean nothing: a call that is done mends both. */
static void start_at_phase(uint32_t phase, struct microword mir)
{
    start(&before);
    before.words = 4;
    before.phase = phase;
    before.mir = pack(mir);
    before.state[AVM_PSW] = 0xFFFFFFC0 | SM | C;
    before.state[AVM_MPC] = 2;
    before.latches[AVM_IREQ] = 0x80000000;
    before.latches[AVM_IACK] = 2;
    after = before;
    after.phase = (phase + 1) % 4;
    after.state[AVM_PSW] = SM | C;
    after.latches[AVM_IREQ] = 1;
    after.latches[AVM_IACK] = 1;
}

static void phase_one(void)
{
    struct microword word = idle();
    uint8_t request;

    word.addr = 3;
    word.ftch = true;
    for (request = 0; request <= 3; request++) {
        start_at_phase(0, idle());
        before.program[2] = after.mir = pack(word);
        after.latches[AVM_IREQ] = request & 1;
        check_phase(&before, &after, done(0, 0), request);
    }
}

/* The word in MIR counts, not the one in the program. A request byte at this phase changes nothing. */
static void phase_two(void)
{
    struct microword word = idle();

    word.srca = SRCA_PSW;
    word.srcb = SRCB_IVEC;
    start_at_phase(1, word);
    after.latches[AVM_ALATCH] = SM | C;
    after.latches[AVM_BLATCH] = 0xE0000000;
    after.latches[AVM_IACK] = 0;
    check_phase(&before, &after, done(0, 0), 0);

    word.srca = SRCA_REG_DEST;
    word.srcb = SRCB_IR;
    word.iack = true;
    start_at_phase(1, word);
    before.state[AVM_IR] = after.state[AVM_IR] = 31u << 21 | 0xFFFF;
    before.latches[AVM_IACK] = 0;
    after.latches[AVM_ALATCH] = 0xB000001F;
    after.latches[AVM_BLATCH] = 0xFFFF;
    check_phase(&before, &after, done(0, 0), 1);
}

static void phase_three(void)
{
    int mar, pmux;

    for (mar = 0; mar <= 1; mar++)
        for (pmux = 0; pmux <= 1; pmux++) {
            struct microword word = idle();

            word.mar = mar;
            word.pmux = pmux;
            word.rd = word.wr = word.mbr = true;
            start_at_phase(2, word);
            if (mar && pmux)
                after.state[AVM_MAR] = 3;
            check_phase(&before, &after, done(0, 0), 3);
        }
}

/* F0000001 + F0000002 from the latches is E0000003 with c and n; the registers that they may have come from are not read again. MAR keeps
   what phase three gave it, since PMUX is on. */
static void phase_four(void)
{
    struct microword word = idle();

    word.alu = ALU_ADD;
    word.srca = SRCA_REG_FILE;
    word.srcb = SRCB_REG_FILE;
    word.trgt = TRGT_SSP;
    word.ld_c = word.csrc = word.ld_v = word.ld_n = word.ld_z = true;
    word.c_sm = true;
    word.mar = word.pmux = word.mbr = word.wr = true;
    word.iack = false;
    word.addr = 1;
    start_at_phase(3, word);
    after.registers[1] = 0xE0000003;
    after.state[AVM_PSW] = C | N;
    after.state[AVM_MBR] = 0xE0000003;
    after.state[AVM_MPC] = 1;
    after.memory[5] = 0xD0000000;
    check_phase(&before, &after, done(0, 0), 0);
}

/* The latch decides, not the request byte of the call. */
static void the_latched_request_is_read_in_phase_four(void)
{
    static const struct { uint32_t ireq, psw; uint8_t request; uint32_t mpc; } rows[] = {
        {1, IE, 0, 0}, {0x100, IE, 0, 0}, {0, IE, 1, 3}, {1, SM, 1, 3},
    };
    size_t k;

    for (k = 0; k < COUNT(rows); k++) {
        struct microword word = idle();

        word.cond = COND_JINT;
        start_at_phase(3, word);
        before.latches[AVM_IREQ] = rows[k].ireq;
        after.latches[AVM_IREQ] = rows[k].ireq != 0;
        before.state[AVM_PSW] = after.state[AVM_PSW] = rows[k].psw;
        after.state[AVM_MPC] = rows[k].mpc;
        check_phase(&before, &after, done(0, 0), rows[k].request);
    }
}

/* The word loads MAR in phase three and steps out of the program in phase four. */
static void leaving_comes_from_phase_four_alone(void)
{
    struct microword word = idle();
    uint32_t phase;

    word.cond = COND_STEP;
    word.mar = word.pmux = word.wr = word.mbr = word.s_ie = true;
    word.trgt = TRGT_PC;
    for (phase = 0; phase <= 3; phase++) {
        start_at_phase(phase, word);
        before.words = 3;
        before.program[2] = pack(word);
        if (phase == 1) {
            after.latches[AVM_ALATCH] = 3;
            after.latches[AVM_BLATCH] = 0;
            after.latches[AVM_IACK] = 0;
        }
        if (phase == 2)
            after.state[AVM_MAR] = 3;
        if (phase < 3)
            check_phase(&before, &after, done(0, 0), 1);
        else
            check_phase(&before, &before, left(0, 0), 1);
    }
}

const struct test phase_tests[] = {
    {"phase one loads MIR from the program at MPC and latches the request anew", phase_one},
    {"phase two loads both latches and the acknowledge by the MIR that is lent", phase_two},
    {"phase three loads MAR from PC exactly when MAR and PMUX are set", phase_three},
    {"phase four works from the latches, and stores all its results", phase_four},
    {"phase four reads the latched request, a latch word other than 0 is set and comes back as 1", the_latched_request_is_read_in_phase_four},
    {"8 comes from phase four alone, with counts 0 and everything as lent", leaving_comes_from_phase_four_alone},
    {NULL, NULL},
};
