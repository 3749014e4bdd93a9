#include "words.h"

struct instruction instruction_fields(uint32_t word)
{
    struct instruction fields;

    fields.opcode = word >> 26;
    fields.dest = word >> 21 & 31;
    fields.srca = word >> 16 & 31;
    fields.srcb = word >> 11 & 31;
    fields.imm = word & 0xFFFF; /* a number from 0 to 2^16 - 1 (pp. 65-66), so nothing is copied upward */
    return fields;
}

struct psw psw_fields(uint32_t word)
{
    struct psw psw;

    psw.z = word & 1;
    psw.c = word >> 1 & 1;
    psw.n = word >> 2 & 1;
    psw.v = word >> 3 & 1;
    psw.ie = word >> 4 & 1;
    psw.sm = word >> 5 & 1;
    return psw;
}

uint32_t psw_word(struct psw psw)
{
    return 32u * psw.sm + 16u * psw.ie + 8u * psw.v + 4u * psw.n + 2u * psw.c + 1u * psw.z;
}

static int64_t signed_value(uint32_t word)
{
    return word < 0x80000000u ? (int64_t)word : (int64_t)word - 0x100000000;
}

static bool leaves_signed_range(int64_t value)
{
    return value < -0x80000000LL || value > 0x7FFFFFFFLL;
}

struct alu_answer alu_plain(uint32_t result)
{
    struct alu_answer answer = {result, false, false, result >= 0x80000000u, result == 0};

    return answer;
}

/* Carry out when the true sum reaches 2^32, any carry in counted. */
struct alu_answer alu_sum(uint32_t a, uint32_t b, bool carry)
{
    uint64_t true_sum = (uint64_t)a + b + carry;
    struct alu_answer answer = alu_plain((uint32_t)true_sum);

    answer.c = true_sum > 0xFFFFFFFFu;
    answer.v = leaves_signed_range(signed_value(a) + signed_value(b) + carry);
    return answer;
}

/* The carry bit itself is subtracted (text of SUBC, pp. 68-74), and carry out means that nothing was borrowed. */
struct alu_answer alu_difference(uint32_t a, uint32_t b, bool carry)
{
    uint64_t taken_away = (uint64_t)b + carry;
    struct alu_answer answer = alu_plain((uint32_t)(a - taken_away));

    answer.c = a >= taken_away;
    answer.v = leaves_signed_range(signed_value(a) - signed_value(b) - carry);
    return answer;
}

/* Figure 5.6, p. 99, and ALU_FUNC, pp. 114-117. */
struct alu_answer alu(unsigned code, uint32_t a, uint32_t b, bool carry)
{
    switch (code) {
    case 0: return alu_sum(a, b, false);
    case 1: return alu_sum(a, b, carry);
    case 2: return alu_sum(a, 1, false);
    case 3: return alu_difference(a, b, false);
    case 4: return alu_difference(a, b, carry);
    case 5: return alu_difference(a, 1, false);
    case 6: return alu_plain(a & b);
    case 7: return alu_plain(a ^ b);
    case 8: return alu_plain(a | b);
    case 9: return alu_plain(~a);
    default: return alu_plain(a);
    }
}

/* SHIFTER_SPEC, pp. 99-102: the carry is the bit that is shifted out. */
struct shifter_answer shifter(unsigned code, uint32_t word)
{
    struct shifter_answer answer = {word, false};

    switch (code) {
    case 0: answer.result = word << 1, answer.carry = word >> 31; break;
    case 1: answer.result = word >> 1, answer.carry = word & 1; break;
    case 2: answer.result = word >> 1 | (word & 0x80000000u), answer.carry = word & 1; break;
    }
    return answer;
}

/* JUMP_COND, pp. 91-99: the code is the whole destination field. */
bool jump_cond(unsigned code, struct psw psw)
{
    bool less = psw.n != psw.v;

    switch (code) {
    case 0: return psw.c;
    case 1: return !psw.c;
    case 2: return psw.v;
    case 3: return !psw.v;
    case 4: return psw.n;
    case 5: return !psw.n;
    case 6: return psw.z;
    case 7: return !psw.z;
    case 8: return !psw.c || psw.z;
    case 9: return !(!psw.c || psw.z);
    case 10: return less;
    case 11: return !less;
    case 12: return !(less || psw.z);
    case 13: return less || psw.z;
    default: return true;
    }
}

/* UPDATE_REG, pp. 91-99. */
void update_register(uint32_t *registers, struct psw psw, unsigned number, uint32_t value)
{
    bool supervisors = number >= 1 && number <= 7;

    if (number == 0 || (supervisors && !psw.sm))
        return;
    registers[number] = value;
}
