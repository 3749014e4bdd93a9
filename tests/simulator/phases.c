#include "phases.h"

#include "microword.h"
#include "words.h"

enum { OPCODE_TABLE = 4 }; /* jop goes here, plus the opcode */

void phase_one(struct machine *now, const struct store *store, bool int_e)
{
    now->mir = store->urom[now->mpc];
    now->ireq_ff = int_e;
    now->clk = 1;
}

static uint32_t new_alatch(const struct machine *old, unsigned srca)
{
    struct instruction ir = instruction_fields(old->ir);

    switch (srca) {
    case SRCA_REG_FILE: return old->reg[ir.srca];
    case SRCA_REG_DEST: return old->reg[ir.dest];
    case SRCA_SSP: return old->reg[SSP];
    case SRCA_PSW: return old->psw;
    case SRCA_C255: return 255;
    default: return old->pc;
    }
}

static uint32_t new_blatch(const struct machine *old, unsigned srcb)
{
    struct instruction ir = instruction_fields(old->ir);

    switch (srcb) {
    case SRCB_REG_FILE: return old->reg[ir.srcb];
    case SRCB_IVEC: return old->ivec;
    default: return ir.imm;
    }
}

void phase_two(struct machine *now)
{
    struct microword mir = microword_fields(now->mir);

    now->alatch = new_alatch(now, mir.srca);
    now->blatch = new_blatch(now, mir.srcb);
    now->iack_ff = mir.iack;
    now->clk = 2;
}

void phase_three(struct machine *now)
{
    struct microword mir = microword_fields(now->mir);

    if (mir.pmux && mir.mar)
        now->mar = now->pc;
    now->clk = 3;
}

/* Addresses have 6 bits, so the word after 63 is 0. Of the opcode five bits count. */
uint32_t mpc_unit(uint32_t mpc, unsigned opcode, unsigned addr, unsigned cond, bool ireq_ff, bool ie, bool sm)
{
    uint32_t next_word = (mpc + 1) % 64;

    switch (cond) {
    case COND_JMP: return addr;
    case COND_JOP: return OPCODE_TABLE + opcode % 32;
    case COND_JINT: return ireq_ff && ie ? addr : next_word;
    case COND_JSM: return sm ? addr : next_word;
    default: return next_word;
    }
}

/* PSW_SPEC, pp. 91-99. Of a whole word only the six bits are kept. */
static uint32_t new_psw(const struct microword *mir, struct psw psw, struct alu_answer alu, struct shifter_answer shifted)
{
    if (mir->trgt == TRGT_PSW && psw.sm)
        return psw_word(psw_fields(shifted.result));
    psw.sm = mir->s_sm ? true : mir->c_sm ? false : psw.sm;
    psw.ie = mir->s_ie ? true : mir->c_ie ? false : psw.ie;
    psw.v = mir->ld_v ? alu.v : psw.v;
    psw.n = mir->ld_n ? alu.n : psw.n;
    psw.c = mir->ld_c ? (mir->csrc ? alu.c : shifted.carry) : psw.c;
    psw.z = mir->ld_z ? alu.z : psw.z;
    return psw_word(psw);
}

/* Figures 5.9 and 5.10, pp. 113-114: all new values are made from the old state. */
bool phase_four(struct machine *now, const struct store *store)
{
    const struct machine old = *now;
    const struct microword mir = microword_fields(old.mir);
    const struct psw psw = psw_fields(old.psw);
    const struct instruction ir = instruction_fields(old.ir);
    const struct alu_answer answer = alu(mir.alu, mir.amux ? old.mbr : old.alatch, old.blatch, psw.c);
    const struct shifter_answer shifted = shifter(mir.shft, answer.result);
    const uint32_t result = shifted.result;
    const uint32_t next = mpc_unit(old.mpc, ir.opcode, mir.addr, mir.cond, old.ireq_ff, psw.ie, psw.sm);
    uint32_t *addressed = &store->memory[old.mar % store->m];

    if (next >= store->words)
        return false;
    now->psw = new_psw(&mir, psw, answer, shifted);
    if (mir.trgt == TRGT_REG_FILE)
        update_register(now->reg, psw, ir.dest, result);
    if (mir.trgt == TRGT_SSP)
        update_register(now->reg, psw, SSP, result);
    now->mpc = next;
    now->ir = mir.trgt == TRGT_IR ? result : old.ir;
    now->pc = mir.trgt == TRGT_PC || (mir.trgt == TRGT_PCJ && jump_cond(ir.dest, psw)) ? result : old.pc;
    now->mbr = mir.rd ? *addressed : mir.mbr ? result : old.mbr;
    now->mar = mir.mar && !mir.pmux ? result : old.mar;
    if (mir.wr)
        *addressed = old.mbr;
    now->clk = 0;
    return true;
}

bool microcycle(struct machine *now, const struct store *store, bool int_e)
{
    struct machine next = *now;

    phase_one(&next, store, int_e);
    phase_two(&next);
    phase_three(&next);
    if (!phase_four(&next, store))
        return false;
    *now = next;
    return true;
}
