/* A program that only uses the header. It is compiled as C99 and as C++, linked and run: its status is 0 where calls and numbers fit. */
#include "../../include/schoonleech.h"
#include "../../include/schoonleech.h"

/* The preprocessor can compare the constants that are macros. */
#if AVM_VERSION / 10000 != AVM_VERSION_MAJOR || AVM_VERSION / 100 % 100 != AVM_VERSION_MINOR || AVM_VERSION % 100 != AVM_VERSION_PATCH
#error the version is not the number of its parts
#endif
#if (AVM_REQUEST_INTERRUPT | AVM_REQUEST_RESET) != 3 || AVM_PSW_ALL != 63 || AVM_FIELD_COND_MOST >= 1 << AVM_FIELD_COND_WIDTH
#error a constant has another value here
#endif

/* Indices, sizes and offsets below are those of this major version: whoever changes one moves it. */
static int version_fits(void)
{
    return AVM_VERSION_MAJOR == 1;
}

static int limits_fit(void)
{
    return AVM_REGISTERS == 32 && AVM_WORDS_FEWEST == 16 && AVM_WORDS_MOST == 16384 && AVM_PROGRAM_MOST == 64 && AVM_FETCH == 0 &&
           AVM_WALK_MOST == 64 && AVM_TEXT_MOST == 262144 && AVM_WRITTEN(16) == 188 && AVM_WRITTEN(8 + 8) == 188 &&
           AVM_WRITTEN(AVM_WORDS_MOST) * 2 == 360472;
}

static int numbers_fit(void)
{
    return AVM_DONE == 0 && AVM_BAD_MEMORY_LENGTH == 1 && AVM_BAD_REGISTER_COUNT == 2 && AVM_REGISTER_0_NOT_ZERO == 3 &&
           AVM_BAD_PROGRAM_LENGTH == 4 && AVM_BAD_MICROWORD == 5 && AVM_OUTSIDE == 6 && AVM_BAD_REQUEST == 7 && AVM_LEFT_PROGRAM == 8 &&
           AVM_TEXT_TOO_LONG == 9 && AVM_NOT_A_RECORD == 10 && AVM_BAD_SUM == 11 && AVM_BAD_TYPE == 12 && AVM_BAD_EXTENT == 13 &&
           AVM_BAD_END == 14 && AVM_BAD_ORDER == 15 && AVM_NO_ROOM == 16 && AVM_WALK_LEAVES == 17 && AVM_WALK_NOT_BACK == 18;
}

static int places_fit(void)
{
    return AVM_PSW == 0 && AVM_PC == 1 && AVM_IR == 2 && AVM_MAR == 3 && AVM_MBR == 4 && AVM_MPC == 5 && AVM_IVEC == 6 &&
           AVM_STATE == 7 && AVM_ALATCH == 0 && AVM_BLATCH == 1 && AVM_IREQ == 2 && AVM_IACK == 3 && AVM_LATCHES == 4 &&
           sizeof(avm_answer) == 32 && sizeof(avm_microcycles) == 8 && sizeof(avm_instructions) == 8;
}

static int board_fits(void)
{
    return sizeof(avm_board) == 156 && offsetof(avm_board, registers) == 0 && offsetof(avm_board, psw) == 128 &&
           offsetof(avm_board, pc) == 132 && offsetof(avm_board, ir) == 136 && offsetof(avm_board, mar) == 140 &&
           offsetof(avm_board, mbr) == 144 && offsetof(avm_board, mpc) == 148 && offsetof(avm_board, ivec) == 152;
}

static int bits_fit(void)
{
    return AVM_REQUEST_INTERRUPT == 1 && AVM_REQUEST_RESET == 2 && AVM_PSW_Z == 1 && AVM_PSW_C == 2 && AVM_PSW_N == 4 && AVM_PSW_V == 8 &&
           AVM_PSW_IE == 16 && AVM_PSW_SM == 32 && AVM_PSW_ALL == 63;
}

enum { FIELDS = 24 };

#define EACH_FIELD(of) \
    of(AMUX), of(SHFT), of(ALU), of(MAR), of(MBR), of(PMUX), of(SRCA), of(SRCB), of(TRGT), of(S_SM), of(C_SM), of(S_IE), of(C_IE), \
    of(LD_C), of(LD_V), of(LD_N), of(LD_Z), of(CSRC), of(IACK), of(FTCH), of(RD), of(WR), of(COND), of(ADDR)
#define SHIFT_OF(field) AVM_FIELD_##field##_SHIFT
#define WIDTH_OF(field) AVM_FIELD_##field##_WIDTH

/* From the top each field begins where the one before it ends, down to bit 0. */
static int fields_tile_a_microword(void)
{
    static const int shifts[FIELDS] = {EACH_FIELD(SHIFT_OF)}, widths[FIELDS] = {EACH_FIELD(WIDTH_OF)};
    int end = AVM_MICROWORD_BITS, k;

    for (k = 0; k < FIELDS; end = shifts[k], k++)
        if (widths[k] < 1 || shifts[k] + widths[k] != end)
            return 0;
    return end == 0 && AVM_MICROWORD_BITS == 40;
}

/* Words of the published microprogram as docs/MICROPROGRAM.md has them, each field in its place. No word of it has FTCH or jsm. */
static int fields_fit(void)
{
#define CODE_OF(field) AVM_FIELD(word, field)
    static const struct {
        unsigned address, codes[FIELDS];
    } known[] = {
        {0, {0, AVM_SHFT_NSH, AVM_ALU_NOP, 1, 0, 1, AVM_SRCA_PC, AVM_SRCB_IR, AVM_TRGT_NOREG, 0, 0, 0, 0, 0, 0, 0, 0, 0,
             0, 0, 1, 0, AVM_COND_JINT, 49}},
        {2, {0, AVM_SHFT_NSH, AVM_ALU_INC, 0, 0, 0, AVM_SRCA_PC, AVM_SRCB_IR, AVM_TRGT_PC, 0, 0, 0, 0, 0, 0, 0, 0, 0,
             0, 0, 0, 0, AVM_COND_JOP, 0}},
        {4, {0, AVM_SHFT_NSH, AVM_ALU_ADD, 0, 0, 0, AVM_SRCA_REG_FILE, AVM_SRCB_IR, AVM_TRGT_PCJ, 0, 0, 0, 0, 0, 0, 0, 0, 0,
             0, 0, 0, 0, AVM_COND_JMP, 0}},
        {9, {0, AVM_SHFT_NSH, AVM_ALU_NOP, 0, 0, 0, AVM_SRCA_REG_DEST, AVM_SRCB_IR, AVM_TRGT_PSW, 0, 0, 0, 0, 0, 0, 0, 0, 0,
             0, 0, 0, 0, AVM_COND_JMP, 0}},
        {13, {0, AVM_SHFT_SHR, AVM_ALU_NOP, 0, 0, 0, AVM_SRCA_REG_FILE, AVM_SRCB_IR, AVM_TRGT_REG_FILE, 0, 0, 0, 0, 1, 0, 0, 0, 0,
              0, 0, 0, 0, AVM_COND_JMP, 0}},
        {23, {0, AVM_SHFT_NSH, AVM_ALU_SUBC, 0, 0, 0, AVM_SRCA_REG_FILE, AVM_SRCB_REG_FILE, AVM_TRGT_REG_FILE, 0, 0, 0, 0, 1, 1, 1, 1, 1,
              0, 0, 0, 0, AVM_COND_JMP, 0}},
        {27, {0, AVM_SHFT_NSH, AVM_ALU_BNOT, 0, 0, 0, AVM_SRCA_REG_FILE, AVM_SRCB_IR, AVM_TRGT_REG_FILE, 0, 0, 0, 0, 0, 0, 1, 1, 0,
              0, 0, 0, 0, AVM_COND_JMP, 0}},
        {44, {1, AVM_SHFT_NSH, AVM_ALU_NOP, 0, 0, 0, AVM_SRCA_PC, AVM_SRCB_IR, AVM_TRGT_PC, 0, 1, 1, 0, 0, 0, 0, 0, 0,
              0, 0, 0, 0, AVM_COND_JMP, 0}},
        {47, {0, AVM_SHFT_NSH, AVM_ALU_NOP, 0, 1, 0, AVM_SRCA_REG_DEST, AVM_SRCB_IR, AVM_TRGT_NOREG, 0, 0, 0, 0, 0, 0, 0, 0, 0,
              0, 0, 0, 0, AVM_COND_STEP, 0}},
        {49, {0, AVM_SHFT_NSH, AVM_ALU_NOP, 1, 0, 0, AVM_SRCA_SSP, AVM_SRCB_IR, AVM_TRGT_NOREG, 1, 0, 0, 1, 0, 0, 0, 0, 0,
              1, 0, 0, 0, AVM_COND_STEP, 0}},
        {51, {0, AVM_SHFT_NSH, AVM_ALU_BAND, 0, 0, 0, AVM_SRCA_C255, AVM_SRCB_IVEC, AVM_TRGT_PC, 0, 0, 0, 0, 0, 0, 0, 0, 0,
              0, 0, 0, 1, AVM_COND_STEP, 0}},
    };
    size_t k, field;

    for (k = 0; k < sizeof known / sizeof known[0]; k++) {
        const uint64_t word = avm_published(known[k].address);
        const unsigned codes[FIELDS] = {EACH_FIELD(CODE_OF)};

        for (field = 0; field < FIELDS; field++)
            if (codes[field] != known[k].codes[field])
                return 0;
    }
    return 1;
}

/* The codes that those words do not have. */
static int codes_fit(void)
{
    return AVM_SHFT_SHL == 0 && AVM_SHFT_ASR == 2 && AVM_ALU_ADDC == 1 && AVM_ALU_SUB == 3 && AVM_ALU_DEC == 5 && AVM_ALU_BXOR == 7 &&
           AVM_ALU_BOR == 8 && AVM_SRCA_PSW == 3 && AVM_TRGT_SSP == 1 && AVM_TRGT_IR == 3 && AVM_COND_JSM == 4;
}

/* A word that does nothing and leads to fetch, with another code in a field. */
static int code_is_taken(int shift, int width, unsigned code)
{
    const uint64_t field = ((UINT64_C(1) << width) - 1) << shift, word = (UINT64_C(0x742D800040) & ~field) | (uint64_t)code << shift;

    return avm_check(&word, 1).number != AVM_BAD_MICROWORD;
}

static int highest_codes_fit(void)
{
#define IS_HIGHEST(field) \
    (code_is_taken(AVM_FIELD_##field##_SHIFT, AVM_FIELD_##field##_WIDTH, AVM_FIELD_##field##_MOST) && \
     !code_is_taken(AVM_FIELD_##field##_SHIFT, AVM_FIELD_##field##_WIDTH, AVM_FIELD_##field##_MOST + 1))
    return IS_HIGHEST(ALU) && IS_HIGHEST(SRCA) && IS_HIGHEST(SRCB) && IS_HIGHEST(TRGT) && IS_HIGHEST(COND) &&
           !code_is_taken(AVM_MICROWORD_BITS, 1, 1);
}

/* LD r3 r4 r5 with bit 31 set, which does not count, and the word that has all other bits. */
static int instruction_fields_fit(void)
{
    const uint32_t one = 0x98642800, other = 0x679BD7FF;

    return AVM_INSTRUCTION_FIELD(one, OPCODE) == 6 && AVM_INSTRUCTION_FIELD(other, OPCODE) == 25 && AVM_INSTRUCTION_FIELD(one, DEST) == 3 &&
           AVM_INSTRUCTION_FIELD(other, DEST) == 28 && AVM_INSTRUCTION_FIELD(one, SRCA) == 4 && AVM_INSTRUCTION_FIELD(other, SRCA) == 27 &&
           AVM_INSTRUCTION_FIELD(one, SRCB) == 5 && AVM_INSTRUCTION_FIELD(other, SRCB) == 26 &&
           AVM_INSTRUCTION_FIELD(one, IMM) == 0x2800 && AVM_INSTRUCTION_FIELD(other, IMM) == 0xD7FF;
}

/* From a word with jop the opcode in IR leads on. */
static uint32_t address_after_jop(uint32_t opcode)
{
    static const uint8_t no_request = 0;
    uint32_t memory[AVM_WORDS_FEWEST] = {0}, registers[AVM_REGISTERS] = {0}, state[AVM_STATE] = {0};
    uint64_t program[AVM_PROGRAM_MOST];
    size_t k;

    for (k = 0; k < AVM_PROGRAM_MOST; k++)
        program[k] = (uint64_t)AVM_TRGT_NOREG << AVM_FIELD_TRGT_SHIFT | (uint64_t)AVM_COND_JOP << AVM_FIELD_COND_SHIFT;
    state[AVM_IR] = opcode << AVM_INSTRUCTION_OPCODE_SHIFT;
    avm_run(program, AVM_PROGRAM_MOST, memory, AVM_WORDS_FEWEST, registers, AVM_REGISTERS, state, &no_request, 1);
    return state[AVM_MPC];
}

static int jop_fits(void)
{
    return address_after_jop(0) == AVM_JOP_FIRST && address_after_jop(31) == AVM_JOP_LAST;
}

/* 64 words that each lead to the next have one walk, the longest that is accepted. */
static int longest_walk_fits(void)
{
    uint64_t program[AVM_PROGRAM_MOST];
    avm_answer answer;
    size_t k;

    for (k = 0; k < AVM_PROGRAM_MOST; k++)
        program[k] = UINT64_C(0x742D800000);
    answer = avm_check(program, AVM_PROGRAM_MOST);
    return answer.number == AVM_DONE && answer.microcycles.count == AVM_WALK_MOST;
}

/* 0 + 0, 0 - 1, -1 + 1 and the largest number + 1, and then the interrupt step. */
static int flags_fit(void)
{
    static const uint32_t flags[4] = {AVM_PSW_Z, AVM_PSW_N, AVM_PSW_Z | AVM_PSW_C, AVM_PSW_N | AVM_PSW_V};
    const uint8_t none = 0, interrupt = AVM_REQUEST_INTERRUPT, reset = AVM_REQUEST_RESET;
    uint32_t memory[AVM_WORDS_FEWEST] = {0x61000000, 0x69000001, 0x61080001, 0x61290001};
    uint32_t registers[AVM_REGISTERS] = {0}, state[AVM_STATE] = {0};
    size_t k;

    registers[9] = 0x7FFFFFFF;
    for (k = 0; k < 4; k++) {
        avm_steps(memory, AVM_WORDS_FEWEST, registers, AVM_REGISTERS, state, &none, 1);
        if (state[AVM_PSW] != flags[k])
            return 0;
    }
    state[AVM_PSW] = AVM_PSW_Z | AVM_PSW_IE;
    if (avm_steps(memory, AVM_WORDS_FEWEST, registers, AVM_REGISTERS, state, &reset, 1).number != AVM_BAD_REQUEST)
        return 0;
    avm_steps(memory, AVM_WORDS_FEWEST, registers, AVM_REGISTERS, state, &interrupt, 1);
    if (state[AVM_PSW] != (AVM_PSW_Z | AVM_PSW_SM) || state[AVM_PC] != 0 || memory[0] != 4)
        return 0;
    state[AVM_PSW] = UINT32_MAX;
    avm_steps(memory, AVM_WORDS_FEWEST, registers, AVM_REGISTERS, state, NULL, 0);
    return state[AVM_PSW] == AVM_PSW_ALL;
}

/* A microprogram of one word that leads to itself: two microcycles, two returns, and then phase one. */
static int calls_fit(void)
{
    const uint64_t program[1] = {UINT64_C(0x742D800040)};
    const uint8_t requests[2] = {0, 1};
    uint32_t memory[AVM_WORDS_FEWEST] = {0}, registers[AVM_REGISTERS] = {0}, state[AVM_STATE] = {0}, latches[AVM_LATCHES] = {0};
    uint32_t phase = 0;
    uint64_t mir = 0;
    avm_answer answer = avm_run(program, 1, memory, AVM_WORDS_FEWEST, registers, AVM_REGISTERS, state, requests, 2);
    avm_microcycles microcycles = answer.microcycles;
    avm_instructions steps = answer.steps;

    if (answer.number != AVM_DONE || answer.at != 0 || microcycles.count != 2 || steps.count != 2)
        return 0;
    answer = avm_phase(program, 1, memory, AVM_WORDS_FEWEST, registers, AVM_REGISTERS, state, latches, &mir, &phase, 1);
    return answer.number == AVM_DONE && mir == program[0] && phase == 1 && latches[AVM_IREQ] == 1;
}

/* Memory of zeros is all JMP on a carry that is never set: three steps, and no MPC is looked at. A request byte of 2 is refused. */
static int steps_fit(void)
{
    const uint8_t requests[4] = {0, 1, 0, 2};
    uint32_t memory[AVM_WORDS_FEWEST] = {0}, registers[AVM_REGISTERS] = {0}, state[AVM_STATE] = {0};
    avm_answer answer;

    state[AVM_MPC] = UINT32_MAX;
    answer = avm_steps(memory, AVM_WORDS_FEWEST, registers, AVM_REGISTERS, state, requests, 3);
    if (answer.number != AVM_DONE || answer.microcycles.count != 0 || answer.steps.count != 3)
        return 0;
    answer = avm_steps(memory, AVM_WORDS_FEWEST, registers, AVM_REGISTERS, state, requests, 4);
    return answer.number == AVM_BAD_REQUEST && answer.at == 3 && answer.steps.count == 0 && state[AVM_PC] == 3;
}

/* One record for both calls: a microcycle of that microprogram, which comes back to fetch, and the jump that is not taken. A request of 3
   is for a microcycle alone. */
static int board_calls_fit(void)
{
    const uint64_t program[1] = {UINT64_C(0x742D800040)};
    uint32_t memory[AVM_WORDS_FEWEST] = {0};
    avm_board board = {{0}, 0, 0, 0, 0, 0, 0, 0};
    avm_answer answer;

    board.psw = 0x40;
    answer = avm_board_instruction(&board, memory, AVM_WORDS_FEWEST, 3);
    if (answer.number != AVM_BAD_REQUEST || answer.at != 0 || board.psw != 0x40)
        return 0;
    answer = avm_board_microcycle(&board, program, 1, memory, AVM_WORDS_FEWEST, 3);
    if (answer.number != AVM_DONE || answer.microcycles.count != 1 || answer.steps.count != 1 || board.psw != 0)
        return 0;
    answer = avm_board_instruction(&board, memory, AVM_WORDS_FEWEST, 0);
    return answer.number == AVM_DONE && answer.microcycles.count == 0 && answer.steps.count == 1 && board.pc == 1 && board.mpc == 0;
}

/* The published microprogram does the same jump in four microcycles, one step. */
static int published_fits(void)
{
    const uint8_t requests[4] = {0, 0, 0, 0};
    uint32_t memory[AVM_WORDS_FEWEST] = {0}, registers[AVM_REGISTERS] = {0}, state[AVM_STATE] = {0};
    uint64_t program[AVM_PROGRAM_MOST];
    avm_answer answer;
    size_t k;

    for (k = 0; k < AVM_PROGRAM_MOST; k++)
        program[k] = avm_published(k);
    answer = avm_run(program, AVM_PROGRAM_MOST, memory, AVM_WORDS_FEWEST, registers, AVM_REGISTERS, state, requests, 4);
    return answer.number == AVM_DONE && answer.steps.count == 1 && state[AVM_PC] == 1 && avm_published(UINT64_MAX) == program[63];
}

/* It is back after 7 microcycles at most. Without word 52, where two of its routines end, it can leave. */
static int check_fits(void)
{
    uint64_t program[AVM_PROGRAM_MOST];
    avm_answer answer;
    size_t k;

    for (k = 0; k < AVM_PROGRAM_MOST; k++)
        program[k] = avm_published(k);
    answer = avm_check(program, AVM_PROGRAM_MOST);
    if (answer.number != AVM_DONE || answer.at != 0 || answer.microcycles.count != 7 || answer.steps.count != 0)
        return 0;
    answer = avm_check(program, 52);
    if (answer.number != AVM_WALK_LEAVES || answer.at != 42 || answer.microcycles.count != 0)
        return 0;
    answer = avm_check(NULL, 0);
    return answer.number == AVM_BAD_PROGRAM_LENGTH;
}

/* What is written of one memory is read into another. A count of 0 before 16 bytes is refused; with no room the bytes needed are told. */
static int image_fits(void)
{
    uint32_t memory[AVM_WORDS_FEWEST] = {0x10, 0x12345678}, other[AVM_WORDS_FEWEST] = {0};
    uint8_t text[AVM_WRITTEN(AVM_WORDS_FEWEST)];
    avm_answer answer = avm_write(memory, AVM_WORDS_FEWEST, text, sizeof text);

    if (answer.number != AVM_DONE || answer.at != sizeof text)
        return 0;
    answer = avm_read(other, AVM_WORDS_FEWEST, text, sizeof text);
    if (answer.number != AVM_DONE || answer.at != 0 || other[0] != 0x10 || other[1] != 0x12345678)
        return 0;
    text[1] = '0';
    answer = avm_read(other, AVM_WORDS_FEWEST, text, sizeof text);
    if (answer.number != AVM_NOT_A_RECORD || answer.at != 1)
        return 0;
    answer = avm_write(memory, AVM_WORDS_FEWEST, NULL, 0);
    return answer.number == AVM_NO_ROOM && answer.at == sizeof text && avm_read(other, AVM_WORDS_FEWEST, NULL, 0).number == AVM_BAD_END;
}

int main(void)
{
    int names_fit = version_fits() && limits_fit() && numbers_fit() && places_fit() && board_fits() && bits_fit() && codes_fit();
    int fields_all_fit = fields_tile_a_microword() && fields_fit() && highest_codes_fit() && instruction_fields_fit() && jop_fits();
    int calls_all_fit = calls_fit() && steps_fit() && flags_fit() && board_calls_fit() && published_fits() && check_fits() &&
                        longest_walk_fits() && image_fits();

    return names_fit && fields_all_fit && calls_all_fit ? 0 : 1;
}
