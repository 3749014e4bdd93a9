/* runs [ROW]: avm_run and a plain C simulator on the same runs in one process, in nanoseconds a microcycle, and the engine's speed as a
   share of plain C's. With ROW, a number from 0 on, that row is run once by both and not timed. See bench/README.md. */
#include <stdio.h>
#include <stdlib.h>
#include <string.h>

#include "plain_run.h"
#include "timing.h"

enum { MOST_BYTES = 1000000 }; /* that a repetition runs, in one call or in several */

/* Opcodes (table 5.7, p. 76). */
enum { JMP, CALL, INT, RTI, GPSW, PPSW, LD, ST, LSL, LSR, ASR, RTN, NOOP, NOOP_13, LDI, STI };
enum { ADD = 16, ADDC, SUB, SUBC, BAND, BOR, BXOR, BNOT, ADDI, ADDCI, SUBI, SUBCI, BANDI, BORI, BXORI, NOOP_31 };

enum { IF_CARRY = 0, IF_OVERFLOW = 2, IF_NEGATIVE = 4, IF_NOT_NEGATIVE = 5, IF_ZERO = 6, ALWAYS = 14 }; /* jump codes (table 5.8, p. 78) */

enum { INTERRUPTS_ENABLED = 16 }; /* the PSW's ie */

/* An instruction with an immediate and one with two sources (figure 5.1, p. 66). */
#define I(opcode, dest, srca, immediate) ((uint32_t)(opcode) << 26 | (uint32_t)(dest) << 21 | (uint32_t)(srca) << 16 | (immediate))
#define R(opcode, dest, srca, srcb) I(opcode, dest, srca, (srcb) << 11)

/* Two endless loops of mixed instructions. Interrupts go to the last word, and INT there or to words that lead there. Register 1 is the
   supervisor stack pointer, and 31 the one that CALL and RTN use. Register 8 grows by 13 in each round, which makes all bits of it and of
   what comes from it change, so jumps on flags are taken and not taken. From the place in 14 on there are words to load and store. */
static const uint32_t small_loop[] = {
    R(ADD, 8, 8, 13),
    I(STI, 8, 0, 13), /* the word after the loop */
    R(SUBC, 9, 9, 8),
    I(LDI, 10, 0, 13),
    R(BXOR, 11, 10, 9),
    I(JMP, IF_NOT_NEGATIVE, 0, 7),
    R(ASR, 9, 11, 0),
    I(CALL, 31, 0, 10), /* 7 */
    I(INT, 0, 0, 12),
    I(JMP, ALWAYS, 0, 0),
    R(BAND, 12, 11, 8), /* 10 */
    R(RTN, 31, 0, 0),
    R(RTI, 0, 0, 0), /* 12 */
};

static const uint32_t large_loop[] = {
    R(ADD, 8, 8, 13),
    I(ADDI, 10, 10, 17),
    I(BANDI, 11, 10, 4095),
    R(LD, 15, 14, 11),
    R(ADD, 15, 15, 8),
    R(ADDC, 16, 15, 8),
    I(JMP, IF_CARRY, 0, 8),
    R(BNOT, 16, 16, 0),
    R(ST, 15, 14, 11), /* 8 */
    R(SUB, 17, 16, 8),
    R(SUBC, 18, 17, 15),
    I(JMP, IF_NEGATIVE, 0, 13),
    R(LSL, 18, 18, 0),
    R(LSR, 19, 17, 0), /* 13 */
    R(ASR, 20, 18, 0),
    R(BAND, 21, 17, 20),
    R(BOR, 22, 21, 8),
    R(BXOR, 23, 22, 15),
    I(JMP, IF_ZERO, 0, 0),
    I(CALL, 31, 0, 33),
    I(LDI, 24, 0, 64),
    I(ADDCI, 24, 24, 9),
    I(STI, 24, 0, 64),
    I(SUBI, 25, 24, 77),
    I(SUBCI, 26, 25, 3),
    I(BORI, 27, 26, 16),
    I(BXORI, 27, 27, 85),
    R(GPSW, 28, 0, 0),
    I(INT, 0, 0, 37),
    R(NOOP, 0, 0, 0),
    R(NOOP_13, 0, 0, 0),
    R(NOOP_31, 0, 0, 0),
    I(JMP, ALWAYS, 0, 0),
    R(ADD, 29, 29, 23), /* 33 */
    I(JMP, IF_OVERFLOW, 0, 36),
    R(SUB, 29, 29, 10),
    R(RTN, 31, 0, 0), /* 36 */
    R(GPSW, 30, 0, 0), /* 37 */
    R(PPSW, 30, 0, 0),
    R(RTI, 0, 0, 0),
};

static const struct loop {
    const uint32_t *words;
    size_t length, m;
} small = {small_loop, sizeof small_loop / sizeof small_loop[0], 16}, large = {large_loop, sizeof large_loop / sizeof large_loop[0], 16384};

/* As many calls as take long against what one reading of the clock costs. */
static const struct row {
    const char *name;
    const struct loop *loop;
    size_t bytes, calls;
} rows[] = {
    {"M = 16, calls of 1 byte", &small, 1, 100000},
    {"M = 16, calls of 100 bytes", &small, 100, 10000},
    {"M = 16, calls of 1,000,000 bytes", &small, MOST_BYTES, 1},
    {"M = 16384, calls of 1 byte", &large, 1, 100000},
    {"M = 16384, calls of 100 bytes", &large, 100, 10000},
    {"M = 16384, calls of 1,000,000 bytes", &large, MOST_BYTES, 1},
};

enum { ROWS = sizeof rows / sizeof rows[0] };

typedef avm_answer runner(const uint64_t *program, size_t words, uint32_t *memory, size_t m, uint32_t *registers, size_t count,
                          uint32_t *state, const uint8_t *requests, size_t bytes);

/* What a repetition leaves: the lent places, and each field of its answers summed up. */
struct outcome {
    uint32_t memory[AVM_WORDS_MOST], registers[AVM_REGISTERS], state[AVM_STATE];
    avm_answer sum;
};

static uint64_t published[AVM_PROGRAM_MOST];
static uint8_t requests[MOST_BYTES];
static struct outcome by_engine, by_plain_c;

/* No instruction takes more than 7 microcycles, so a request of 7 is up at a fetch. */
static void prepare(void)
{
    size_t k;

    for (k = 0; k < AVM_PROGRAM_MOST; k++)
        published[k] = avm_published(k);
    for (k = 0; k < MOST_BYTES; k++)
        requests[k] = k % 97 < 7;
}

static void start(const struct loop *loop, struct outcome *places)
{
    memset(places, 0, sizeof *places);
    memcpy(places->memory, loop->words, loop->length * sizeof loop->words[0]);
    places->registers[1] = (uint32_t)loop->m - 2;
    places->registers[13] = 0x9E3779B1;
    places->registers[14] = (uint32_t)loop->m / 4;
    places->registers[31] = (uint32_t)loop->m - 1;
    places->state[AVM_PSW] = INTERRUPTS_ENABLED;
    places->state[AVM_IVEC] = (uint32_t)loop->length - 1;
}

/* Seconds for a repetition: each call goes on where the one before it ended. */
static double seconds(runner *run, const struct row *row, struct outcome *places)
{
    avm_answer *sum = &places->sum, answer;
    double began;
    size_t k;

    start(row->loop, places);
    began = processor_seconds();
    for (k = 0; k < row->calls; k++) {
        answer = run(published, AVM_PROGRAM_MOST, places->memory, row->loop->m, places->registers, AVM_REGISTERS, places->state,
                     requests + k * row->bytes, row->bytes);
        sum->number += answer.number;
        sum->at += answer.at;
        sum->microcycles.count += answer.microcycles.count;
        sum->steps.count += answer.steps.count;
    }
    return processor_seconds() - began;
}

static void compare(const struct row *row)
{
    if (by_engine.sum.number != AVM_DONE || by_engine.sum.microcycles.count != row->calls * row->bytes)
        fail(row->name, "not all bytes were run");
    if (memcmp(&by_engine.sum, &by_plain_c.sum, sizeof by_engine.sum) != 0)
        fail(row->name, "the engine and plain C answer differently");
    if (memcmp(by_engine.memory, by_plain_c.memory, sizeof by_engine.memory) != 0)
        fail(row->name, "the engine and plain C leave different memories");
    if (memcmp(by_engine.registers, by_plain_c.registers, sizeof by_engine.registers) != 0)
        fail(row->name, "the engine and plain C leave different registers");
    if (memcmp(by_engine.state, by_plain_c.state, sizeof by_engine.state) != 0)
        fail(row->name, "the engine and plain C leave different states");
}

/* Engine and plain C in turn, so that what disturbs the machine for a while disturbs both. */
static void measure(const struct row *row)
{
    double engine[REPETITIONS], plain[REPETITIONS], share[REPETITIONS], middle, microcycles = (double)row->calls * (double)row->bytes;
    int k;

    for (k = 0; k < REPETITIONS; k++) {
        engine[k] = seconds(avm_run, row, &by_engine);
        plain[k] = seconds(plain_run, row, &by_plain_c);
        share[k] = plain[k] / engine[k];
        compare(row);
    }
    middle = median(share, REPETITIONS);
    printf("%-38s %10.1f %10.1f %7.2f  (%.2f to %.2f)\n", row->name, 1e9 * median(engine, REPETITIONS) / microcycles,
           1e9 * median(plain, REPETITIONS) / microcycles, middle, share[0], share[REPETITIONS - 1]);
}

static void run_once(const struct row *row)
{
    seconds(avm_run, row, &by_engine);
    seconds(plain_run, row, &by_plain_c);
    compare(row);
    printf("%s: %lu microcycles, %lu returns\n", row->name, (unsigned long)by_engine.sum.microcycles.count,
           (unsigned long)by_engine.sum.steps.count);
}

int main(int count, char **words)
{
    int row;

    prepare();
    if (count > 1) {
        run_once(&rows[strtoul(words[1], NULL, 10) % ROWS]);
        return 0;
    }
    printf("%-38s %10s %10s   engine's speed as a share of plain C's\n", "nanoseconds a microcycle", "engine", "plain C");
    for (row = 0; row < ROWS; row++)
        measure(&rows[row]);
    return 0;
}
