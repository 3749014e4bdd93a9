#include "plain_run.h"

#include "plain_microword.h"

enum { Z = 1, C = 2, N = 4, V = 8, IE = 16, SM = 32, PSW_BITS = 63 };
enum { SSP = 1 };
enum { TO_REGISTER, TO_SSP, TO_PSW, TO_IR, TO_PC, TO_PC_IF_JUMP };

/* The places of a microword's single bits (table 5.12, p. 119). */
enum { WR = 9, RD = 10, CSRC = 13, PMUX = 30, MBR = 31, MAR = 32, AMUX = 39 };
enum { LD_Z = 14, LD_N = 15, LD_V = 16, LD_C = 17, C_IE = 18, S_IE = 19, C_SM = 20, S_SM = 21 };

static const uint64_t psw_changes = (uint64_t)0xFF << LD_Z; /* LD.Z to S.SM */

struct machine {
    const uint64_t *program;
    uint32_t words, *memory, mask, *registers;
    uint32_t psw, pc, ir, mar, mbr, mpc, ivec;
};

/* What the ALU gives, and what the shifter makes of it. */
struct outcome {
    uint32_t alu, result;
    bool carry, overflow, shifted_out;
};

static bool bit(uint64_t word, unsigned place)
{
    return word >> place & 1;
}

static unsigned dest(uint32_t ir)
{
    return ir >> 21 & 31;
}

static uint32_t a_side(const struct machine *now, uint64_t word)
{
    if (bit(word, AMUX))
        return now->mbr;
    switch (word >> 27 & 7) {
    case 0: return now->registers[now->ir >> 16 & 31];
    case 1: return now->registers[dest(now->ir)];
    case 2: return now->registers[SSP];
    case 3: return now->psw;
    case 4: return 255;
    default: return now->pc;
    }
}

static uint32_t b_side(const struct machine *now, uint64_t word)
{
    switch (word >> 25 & 3) {
    case 0: return now->registers[now->ir >> 11 & 31];
    case 1: return now->ivec;
    default: return now->ir & 0xFFFF;
    }
}

static void add(struct outcome *made, uint32_t x, uint32_t y, uint32_t carry)
{
    uint64_t sum = (uint64_t)x + y + carry;

    made->alu = (uint32_t)sum;
    made->carry = sum >> 32 & 1;
    made->overflow = (~(x ^ y) & (x ^ made->alu)) >> 31;
}

/* The carry is set where nothing is borrowed. */
static void subtract(struct outcome *made, uint32_t x, uint32_t y, uint32_t borrow)
{
    uint64_t difference = (uint64_t)x - y - borrow;

    made->alu = (uint32_t)difference;
    made->carry = !(difference >> 32 & 1);
    made->overflow = ((x ^ y) & (x ^ made->alu)) >> 31;
}

static void compute(struct outcome *made, unsigned function, uint32_t x, uint32_t y, bool carry)
{
    made->carry = made->overflow = false;
    switch (function) {
    case 0: add(made, x, y, 0); break;
    case 1: add(made, x, y, carry); break;
    case 2: add(made, x, 1, 0); break;
    case 3: subtract(made, x, y, 0); break;
    case 4: subtract(made, x, y, carry); break;
    case 5: subtract(made, x, 1, 0); break;
    case 6: made->alu = x & y; break;
    case 7: made->alu = x ^ y; break;
    case 8: made->alu = x | y; break;
    case 9: made->alu = ~x; break;
    default: made->alu = x;
    }
}

static void shift(struct outcome *made, unsigned function)
{
    uint32_t x = made->alu;

    made->shifted_out = false;
    switch (function) {
    case 0: made->result = x << 1; made->shifted_out = x >> 31; break;
    case 1: made->result = x >> 1; made->shifted_out = x & 1; break;
    case 2: made->result = x >> 1 | (x & 0x80000000); made->shifted_out = x & 1; break;
    default: made->result = x;
    }
}

static bool jumps(unsigned code, uint32_t psw)
{
    bool c = psw & C, v = psw & V, n = psw & N, z = psw & Z;

    switch (code) {
    case 0: return c;
    case 1: return !c;
    case 2: return v;
    case 3: return !v;
    case 4: return n;
    case 5: return !n;
    case 6: return z;
    case 7: return !z;
    case 8: return !c || z;
    case 9: return c && !z;
    case 10: return n != v;
    case 11: return n == v;
    case 12: return n == v && !z;
    case 13: return n != v || z;
    default: return true;
    }
}

static uint32_t next_address(const struct machine *now, uint64_t word, bool request)
{
    uint32_t jump = word & 63, step = (now->mpc + 1) & 63;

    switch (word >> 6 & 7) {
    case 1: return jump;
    case 2: return 4 + (now->ir >> 26 & 31);
    case 3: return request && now->psw & IE ? jump : step;
    case 4: return now->psw & SM ? jump : step;
    default: return step;
    }
}

static uint32_t with_bit(uint32_t psw, uint32_t which, bool set)
{
    return set ? psw | which : psw & ~which;
}

static uint32_t new_psw(uint32_t psw, uint64_t word, const struct outcome *made)
{
    if (bit(word, S_SM) || bit(word, C_SM))
        psw = with_bit(psw, SM, bit(word, S_SM));
    if (bit(word, S_IE) || bit(word, C_IE))
        psw = with_bit(psw, IE, bit(word, S_IE));
    if (bit(word, LD_V))
        psw = with_bit(psw, V, made->overflow);
    if (bit(word, LD_N))
        psw = with_bit(psw, N, made->alu >> 31);
    if (bit(word, LD_C))
        psw = with_bit(psw, C, bit(word, CSRC) ? made->carry : made->shifted_out);
    if (bit(word, LD_Z))
        psw = with_bit(psw, Z, made->alu == 0);
    return psw;
}

static void write_register(struct machine *now, unsigned number, uint32_t value)
{
    if (number >= 8 || (number > 0 && now->psw & SM))
        now->registers[number] = value;
}

/* Targets are written under the old PSW, so the PSW comes last. */
static void write_target(struct machine *now, uint64_t word, const struct outcome *made)
{
    unsigned target = word >> 22 & 7;

    switch (target) {
    case TO_REGISTER: write_register(now, dest(now->ir), made->result); break;
    case TO_SSP: write_register(now, SSP, made->result); break;
    case TO_IR: now->ir = made->result; break;
    case TO_PC: now->pc = made->result; break;
    case TO_PC_IF_JUMP:
        if (jumps(dest(now->ir), now->psw))
            now->pc = made->result;
        break;
    }
    if (target == TO_PSW && now->psw & SM)
        now->psw = made->result & PSW_BITS;
    else if (word & psw_changes)
        now->psw = new_psw(now->psw, word, made);
}

/* Memory is read and written at the MAR that the result has not yet changed, and the old MBR is what is written. */
static void use_memory(struct machine *now, uint64_t word, uint32_t result)
{
    uint32_t *place = &now->memory[now->mar & now->mask], old = now->mbr;

    if (bit(word, RD))
        now->mbr = *place;
    else if (bit(word, MBR))
        now->mbr = result;
    if (bit(word, WR))
        *place = old;
    if (bit(word, MAR) && !bit(word, PMUX))
        now->mar = result;
}

/* False, and nothing is changed, where the next address would be outside. */
static bool microcycle(struct machine *now, bool request)
{
    uint64_t word = now->program[now->mpc];
    uint32_t next = next_address(now, word, request);
    struct outcome made;

    if (next >= now->words)
        return false;
    compute(&made, word >> 33 & 15, a_side(now, word), b_side(now, word), now->psw & C);
    shift(&made, word >> 37 & 3);
    if (bit(word, MAR) && bit(word, PMUX))
        now->mar = now->pc;
    use_memory(now, word, made.result);
    write_target(now, word, &made);
    now->mpc = next;
    return true;
}

static avm_answer answer(uint64_t number, uint64_t at, uint64_t microcycles, uint64_t steps)
{
    avm_answer made = {number, at, {microcycles}, {steps}};

    return made;
}

static avm_answer run(struct machine *now, const uint8_t *requests, size_t bytes)
{
    uint64_t done = 0, returns = 0;

    while (done < bytes && microcycle(now, requests[done] & 1)) {
        returns += now->mpc == AVM_FETCH;
        done++;
    }
    return answer(done < bytes ? AVM_LEFT_PROGRAM : AVM_DONE, 0, done, returns);
}

static uint64_t first_illegal(const uint64_t *program, size_t words)
{
    size_t k;

    for (k = 0; k < words && legal(program[k]); k++)
        continue;
    return k;
}

static uint64_t first_above_3(const uint8_t *requests, size_t bytes)
{
    size_t k;

    for (k = 0; k < bytes && requests[k] <= 3; k++)
        continue;
    return k;
}

/* AVM_DONE, or the first of 1 to 7 that applies. */
static avm_answer test(const uint64_t *program, size_t words, size_t m, const uint32_t *registers, size_t count, const uint32_t *state,
                       const uint8_t *requests, size_t bytes)
{
    uint64_t at;

    if (m < AVM_WORDS_FEWEST || m > AVM_WORDS_MOST || (m & (m - 1)) != 0)
        return answer(AVM_BAD_MEMORY_LENGTH, 0, 0, 0);
    if (count != AVM_REGISTERS)
        return answer(AVM_BAD_REGISTER_COUNT, 0, 0, 0);
    if (registers[0] != 0)
        return answer(AVM_REGISTER_0_NOT_ZERO, 0, 0, 0);
    if (words < 1 || words > AVM_PROGRAM_MOST)
        return answer(AVM_BAD_PROGRAM_LENGTH, 0, 0, 0);
    at = first_illegal(program, words);
    if (at < words)
        return answer(AVM_BAD_MICROWORD, at, 0, 0);
    if (state[AVM_MPC] >= words)
        return answer(AVM_OUTSIDE, 0, 0, 0);
    at = first_above_3(requests, bytes);
    return at < bytes ? answer(AVM_BAD_REQUEST, at, 0, 0) : answer(AVM_DONE, 0, 0, 0);
}

static void give_state(const struct machine *now, uint32_t *state)
{
    state[AVM_PSW] = now->psw;
    state[AVM_PC] = now->pc;
    state[AVM_IR] = now->ir;
    state[AVM_MAR] = now->mar;
    state[AVM_MBR] = now->mbr;
    state[AVM_MPC] = now->mpc;
}

avm_answer plain_run(const uint64_t *program, size_t words, uint32_t *memory, size_t m, uint32_t *registers, size_t count,
                     uint32_t state[AVM_STATE], const uint8_t *requests, size_t bytes)
{
    struct machine now;
    avm_answer made = test(program, words, m, registers, count, state, requests, bytes);

    if (made.number != AVM_DONE)
        return made;
    now.program = program;
    now.words = (uint32_t)words;
    now.memory = memory;
    now.mask = (uint32_t)m - 1;
    now.registers = registers;
    now.psw = state[AVM_PSW] & PSW_BITS;
    now.pc = state[AVM_PC];
    now.ir = state[AVM_IR];
    now.mar = state[AVM_MAR];
    now.mbr = state[AVM_MBR];
    now.mpc = state[AVM_MPC];
    now.ivec = state[AVM_IVEC];
    made = run(&now, requests, bytes);
    if (made.number == AVM_DONE || made.microcycles.count > 0)
        give_state(&now, state);
    return made;
}
