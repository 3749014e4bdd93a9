/* What a call is lent: the values (inputs), the places that hold them (places), and places between guard pages (lend). */
#ifndef ENGINE_PLACES_H
#define ENGINE_PLACES_H

#include <stdbool.h>
#include <stddef.h>
#include <stdint.h>

#include "../../include/schoonleech.h"
#include "areas.h"

/* Room for lengths that are refused too. */
enum { PROGRAM_ROOM = 1024, MEMORY_ROOM = 32768, REGISTERS_ROOM = 64, REQUESTS_ROOM = 8192 };

struct inputs {
    uint64_t program[PROGRAM_ROOM];
    uint32_t memory[MEMORY_ROOM];
    uint32_t registers[REGISTERS_ROOM];
    uint8_t requests[REQUESTS_ROOM];
    size_t words, m, count, bytes;
    uint32_t state[AVM_STATE];
    uint32_t latches[AVM_LATCHES];
    uint64_t mir;
    uint32_t phase;
    avm_board board;
};

struct places {
    uint64_t *program;
    uint32_t *memory, *registers, *state, *latches;
    uint64_t *mir;
    uint32_t *phase;
    avm_board *board;
    uint8_t *requests;
    size_t words, m, count, bytes;
};

/* Something that answers the calls: the engine, or the second simulator. */
struct implementation {
    const char *name;
    avm_answer (*run)(const uint64_t *program, size_t words, uint32_t *memory, size_t m, uint32_t *registers, size_t count,
                      uint32_t *state, const uint8_t *requests, size_t bytes);
    avm_answer (*phase)(const uint64_t *program, size_t words, uint32_t *memory, size_t m, uint32_t *registers, size_t count,
                        uint32_t *state, uint32_t *latches, uint64_t *mir, uint32_t *phase, uint8_t request);
    avm_answer (*steps)(uint32_t *memory, size_t m, uint32_t *registers, size_t count, uint32_t *state, const uint8_t *requests,
                        size_t bytes);
    avm_answer (*board_microcycle)(avm_board *board, const uint64_t *program, size_t words, uint32_t *memory, size_t m, uint8_t request);
    avm_answer (*board_instruction)(avm_board *board, uint32_t *memory, size_t m, uint8_t request);
    avm_answer (*check)(const uint64_t *program, size_t words);
    avm_answer (*read)(uint32_t *memory, size_t m, const uint8_t *text, size_t bytes);
    avm_answer (*write)(const uint32_t *memory, size_t m, uint8_t *room, size_t bytes);
};

extern const struct implementation engine, simulator;

avm_answer call_run(const struct implementation *implementation, const struct places *places);
avm_answer call_phase(const struct implementation *implementation, const struct places *places, uint8_t request);
avm_answer call_steps(const struct implementation *implementation, const struct places *places);
avm_answer call_board_microcycle(const struct implementation *implementation, const struct places *places, uint8_t request);
avm_answer call_board_instruction(const struct implementation *implementation, const struct places *places, uint8_t request);
avm_answer call_check(const struct implementation *implementation, const struct places *places);

/* A board with these registers and state words, field by field. */
avm_board board_of(const uint32_t *registers, const uint32_t *state);

/* The inputs' own arrays as places. */
struct places places_in(struct inputs *inputs);

/* Copies of the inputs, each lent from an area of its own. Program and requests can only be read. */
struct places lend(const struct inputs *inputs, enum side side);

/* The program alone, for the call that takes nothing else; it costs a fraction of lending all. */
struct places lend_program(const struct inputs *inputs, enum side side);

/* Expects that the pattern around the places of the last lend is whole. */
void expect_nothing_beyond(const char *who);

/* Expects equal answers, equal words of a slice that has a name, equal boards, and equal bytes in all places. */
void expect_same_answer(const char *who, avm_answer got, avm_answer want);
void expect_same_words(const char *who, const char *name, const uint32_t *got, const uint32_t *want, size_t length);
void expect_same_board(const char *who, const avm_board *got, const avm_board *want);
void expect_same_places(const char *who, const struct places *got, const struct places *want);

#endif
