#include "names.h"

#include <stdio.h>

const struct flag flags[FLAGS] = {
    {"sm", AVM_PSW_SM}, {"ie", AVM_PSW_IE}, {"v", AVM_PSW_V}, {"n", AVM_PSW_N}, {"c", AVM_PSW_C}, {"z", AVM_PSW_Z},
};

/* By opcode (table 5.7, p. 76), each with its format (table 5.3, p. 67). */
static const struct {
    const char *name;
    unsigned format;
} instructions[1 << AVM_INSTRUCTION_OPCODE_WIDTH] = {
    {"JMP", 2}, {"CALL", 2}, {"INT", 2}, {"RTI", 4}, {"GPSW", 3}, {"PPSW", 3}, {"LD", 1}, {"ST", 1},
    {"LSL", 1}, {"LSR", 1}, {"ASR", 1}, {"RTN", 3}, {"NOOP", 4}, {"NOOP", 4}, {"LDI", 2}, {"STI", 2},
    {"ADD", 1}, {"ADDC", 1}, {"SUB", 1}, {"SUBC", 1}, {"BAND", 1}, {"BOR", 1}, {"BXOR", 1}, {"BNOT", 1},
    {"ADDI", 2}, {"ADDCI", 2}, {"SUBI", 2}, {"SUBCI", 2}, {"BANDI", 2}, {"BORI", 2}, {"BXORI", 2}, {"NOOP", 4},
};

const char *mnemonic(unsigned opcode)
{
    return instructions[opcode].name;
}

/* JMP's destination is its jump code, and no register. */
const char *tell_instruction(uint32_t word, char room[INSTRUCTION_ROOM])
{
    unsigned opcode = AVM_INSTRUCTION_FIELD(word, OPCODE), d = AVM_INSTRUCTION_FIELD(word, DEST), a = AVM_INSTRUCTION_FIELD(word, SRCA),
             b = AVM_INSTRUCTION_FIELD(word, SRCB), immediate = AVM_INSTRUCTION_FIELD(word, IMM);
    const char *name = mnemonic(opcode);

    if (opcode == 0)
        snprintf(room, INSTRUCTION_ROOM, "%s %u r%u %u", name, d, a, immediate);
    else if (instructions[opcode].format == 1)
        snprintf(room, INSTRUCTION_ROOM, "%s r%u r%u r%u", name, d, a, b);
    else if (instructions[opcode].format == 2)
        snprintf(room, INSTRUCTION_ROOM, "%s r%u r%u %u", name, d, a, immediate);
    else if (instructions[opcode].format == 3)
        snprintf(room, INSTRUCTION_ROOM, "%s r%u", name, d);
    else
        snprintf(room, INSTRUCTION_ROOM, "%s", name);
    return room;
}

#define PLACE(field) AVM_FIELD_##field##_SHIFT, AVM_FIELD_##field##_WIDTH

/* Mnemonics from tables 5.13 to 5.18, pp. 120-123. */
const struct field fields[FIELDS] = {
    [FIELD_AMUX] = {"AMUX", PLACE(AMUX), 1, {NULL}},
    [FIELD_SHFT] = {"SHFT", PLACE(SHFT), AVM_SHFT_NSH, {"shl", "shr", "asr", "nsh"}},
    [FIELD_ALU] = {"ALU", PLACE(ALU), AVM_FIELD_ALU_MOST,
                   {"add", "addc", "inc", "sub", "subc", "dec", "band", "bxor", "bor", "bnot", "nop"}},
    [FIELD_MAR] = {"MAR", PLACE(MAR), 1, {NULL}},
    [FIELD_MBR] = {"MBR", PLACE(MBR), 1, {NULL}},
    [FIELD_PMUX] = {"PMUX", PLACE(PMUX), 1, {NULL}},
    [FIELD_SRCA] = {"SRCA", PLACE(SRCA), AVM_FIELD_SRCA_MOST, {"reg_file", "reg_dest", "ssp", "psw", "C255", "pc"}},
    [FIELD_SRCB] = {"SRCB", PLACE(SRCB), AVM_FIELD_SRCB_MOST, {"reg_file", "ivec", "ir"}},
    [FIELD_TRGT] = {"TRGT", PLACE(TRGT), AVM_FIELD_TRGT_MOST, {"reg_file", "ssp", "psw", "ir", "pc", "pcj", "noreg"}},
    [FIELD_S_SM] = {"S.SM", PLACE(S_SM), 1, {NULL}},
    [FIELD_C_SM] = {"C.SM", PLACE(C_SM), 1, {NULL}},
    [FIELD_S_IE] = {"S.IE", PLACE(S_IE), 1, {NULL}},
    [FIELD_C_IE] = {"C.IE", PLACE(C_IE), 1, {NULL}},
    [FIELD_LD_C] = {"LD.C", PLACE(LD_C), 1, {NULL}},
    [FIELD_LD_V] = {"LD.V", PLACE(LD_V), 1, {NULL}},
    [FIELD_LD_N] = {"LD.N", PLACE(LD_N), 1, {NULL}},
    [FIELD_LD_Z] = {"LD.Z", PLACE(LD_Z), 1, {NULL}},
    [FIELD_CSRC] = {"CSRC", PLACE(CSRC), 1, {NULL}},
    [FIELD_IACK] = {"IACK", PLACE(IACK), 1, {NULL}},
    [FIELD_FTCH] = {"FTCH", PLACE(FTCH), 1, {NULL}},
    [FIELD_RD] = {"RD", PLACE(RD), 1, {NULL}},
    [FIELD_WR] = {"WR", PLACE(WR), 1, {NULL}},
    [FIELD_COND] = {"COND", PLACE(COND), AVM_FIELD_COND_MOST, {"step", "jmp", "jop", "jint", "jsm"}},
    [FIELD_ADDR] = {"ADDR", PLACE(ADDR), AVM_PROGRAM_MOST - 1, {NULL}},
};

unsigned code_of(const struct field *field, uint64_t microword)
{
    return AVM_BITS(microword, field->shift, field->width);
}
