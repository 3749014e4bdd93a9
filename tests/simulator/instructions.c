#include "instructions.h"

static uint32_t load(const struct macro_state *now, uint32_t address)
{
    return now->memory[address % now->m];
}

static void store(struct macro_state *now, uint32_t address, uint32_t word)
{
    now->memory[address % now->m] = word;
}

/* The register rule, with the sm that stands when this is called. */
static void set_register(struct macro_state *now, unsigned number, uint32_t value)
{
    update_register(now->reg, now->psw, number, value);
}

static void jmp(struct macro_state *now, unsigned code, uint32_t target)
{
    now->pc = jump_cond(code, now->psw) ? target : now->pc + 1;
}

/* The target comes from the registers as they were, so source A may be the destination too. */
static void call(struct macro_state *now, unsigned d, uint32_t target)
{
    uint32_t free_place = now->reg[d];

    set_register(now, d, free_place + 1);
    store(now, free_place, now->pc + 1);
    now->pc = target;
}

static void rtn(struct macro_state *now, unsigned d)
{
    uint32_t last_place = now->reg[d] - 1;

    set_register(now, d, last_place);
    now->pc = load(now, last_place);
}

/* INT, and EINT on pp. 130-136: the register rule is asked with the new PSW, so SSP moves in user mode too. */
static void enter_supervisor(struct macro_state *now, uint32_t return_address, uint32_t vector)
{
    uint32_t free_place = now->reg[SSP];

    now->psw.ie = false;
    now->psw.sm = true;
    set_register(now, SSP, free_place + 1);
    store(now, free_place, return_address);
    now->pc = vector & 255;
}

/* Here it is asked with the old PSW: in user mode SSP stays. */
static void rti(struct macro_state *now)
{
    rtn(now, SSP);
    now->psw.ie = true;
    now->psw.sm = false;
}

static void noop(struct macro_state *now)
{
    now->pc++;
}

static void gpsw(struct macro_state *now, unsigned d)
{
    set_register(now, d, psw_word(now->psw));
    now->pc++;
}

/* Of the register's word the six bits are taken. */
static void ppsw(struct macro_state *now, unsigned d)
{
    if (now->psw.sm)
        now->psw = psw_fields(now->reg[d]);
    now->pc++;
}

static void ld(struct macro_state *now, unsigned d, uint32_t address)
{
    set_register(now, d, load(now, address));
    now->pc++;
}

static void st(struct macro_state *now, unsigned d, uint32_t address)
{
    store(now, address, now->reg[d]);
    now->pc++;
}

static void shift(struct macro_state *now, unsigned d, uint32_t result, bool shifted_out)
{
    set_register(now, d, result);
    now->psw.c = shifted_out;
    now->pc++;
}

/* Loads PSW(0-3). */
static void arithmetic(struct macro_state *now, unsigned d, struct alu_answer answer)
{
    set_register(now, d, answer.result);
    now->psw.z = answer.z;
    now->psw.c = answer.c;
    now->psw.n = answer.n;
    now->psw.v = answer.v;
    now->pc++;
}

/* Loads PSW(0,2). */
static void logic(struct macro_state *now, unsigned d, struct alu_answer answer)
{
    set_register(now, d, answer.result);
    now->psw.z = answer.z;
    now->psw.n = answer.n;
    now->pc++;
}

/* Pp. 68-75, in the order of table 5.7. The opcode field's top bit does not count. */
static void instruction(struct macro_state *now, struct instruction word)
{
    const unsigned d = word.dest;
    const uint32_t a = now->reg[word.srca], b = now->reg[word.srcb], imm = word.imm;

    switch (word.opcode % 32) {
    case OP_JMP: jmp(now, d, a + imm); break;
    case OP_CALL: call(now, d, a + imm); break;
    case OP_INT: enter_supervisor(now, now->pc + 1, imm); break;
    case OP_RTI: rti(now); break;
    case OP_GPSW: gpsw(now, d); break;
    case OP_PPSW: ppsw(now, d); break;
    case OP_LD: ld(now, d, a + b); break;
    case OP_ST: st(now, d, a + b); break;
    case OP_LSL: shift(now, d, a << 1, a >> 31); break;
    case OP_LSR: shift(now, d, a >> 1, a & 1); break;
    case OP_ASR: shift(now, d, a >> 1 | (a & 0x80000000u), a & 1); break;
    case OP_RTN: rtn(now, d); break;
    case OP_LDI: ld(now, d, a + imm); break;
    case OP_STI: st(now, d, a + imm); break;
    case OP_ADD: arithmetic(now, d, alu_sum(a, b, false)); break;
    case OP_ADDC: arithmetic(now, d, alu_sum(a, b, now->psw.c)); break;
    case OP_SUB: arithmetic(now, d, alu_difference(a, b, false)); break;
    case OP_SUBC: arithmetic(now, d, alu_difference(a, b, now->psw.c)); break;
    case OP_BAND: logic(now, d, alu_plain(a & b)); break;
    case OP_BOR: logic(now, d, alu_plain(a | b)); break;
    case OP_BXOR: logic(now, d, alu_plain(a ^ b)); break;
    case OP_BNOT: logic(now, d, alu_plain(~a)); break;
    case OP_ADDI: arithmetic(now, d, alu_sum(a, imm, false)); break;
    case OP_ADDCI: arithmetic(now, d, alu_sum(a, imm, now->psw.c)); break;
    case OP_SUBI: arithmetic(now, d, alu_difference(a, imm, false)); break;
    case OP_SUBCI: arithmetic(now, d, alu_difference(a, imm, now->psw.c)); break;
    case OP_BANDI: logic(now, d, alu_plain(a & imm)); break;
    case OP_BORI: logic(now, d, alu_plain(a | imm)); break;
    case OP_BXORI: logic(now, d, alu_plain(a ^ imm)); break;
    default: noop(now); break;
    }
}

/* The choice (Opcode, pp. 130-136) is made by the ie before the step. The interrupt step stores PC itself: the instruction there has not
   been done. */
void macro_step(struct macro_state *now, bool int_e)
{
    if (int_e && now->psw.ie)
        enter_supervisor(now, now->pc, now->ivec);
    else
        instruction(now, instruction_fields(load(now, now->pc)));
}
