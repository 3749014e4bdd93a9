#include "microword.h"

/* Takes the lowest bits off a number. */
static unsigned take(uint64_t *number, unsigned width)
{
    unsigned field = (unsigned)(*number & ((1u << width) - 1));

    *number >>= width;
    return field;
}

/* From the table's last field, which ends at bit 0, up to its first. */
struct microword microword_fields(uint64_t number)
{
    struct microword fields;

    fields.addr = take(&number, 6);
    fields.cond = take(&number, 3);
    fields.wr = take(&number, 1);
    fields.rd = take(&number, 1);
    fields.ftch = take(&number, 1);
    fields.iack = take(&number, 1);
    fields.csrc = take(&number, 1);
    fields.ld_z = take(&number, 1);
    fields.ld_n = take(&number, 1);
    fields.ld_v = take(&number, 1);
    fields.ld_c = take(&number, 1);
    fields.c_ie = take(&number, 1);
    fields.s_ie = take(&number, 1);
    fields.c_sm = take(&number, 1);
    fields.s_sm = take(&number, 1);
    fields.trgt = take(&number, 3);
    fields.srcb = take(&number, 2);
    fields.srca = take(&number, 3);
    fields.pmux = take(&number, 1);
    fields.mbr = take(&number, 1);
    fields.mar = take(&number, 1);
    fields.alu = take(&number, 4);
    fields.shft = take(&number, 2);
    fields.amux = take(&number, 1);
    fields.unused = number;
    return fields;
}

bool microword_is_legal(uint64_t number)
{
    struct microword fields = microword_fields(number);

    return fields.unused == 0 && fields.alu < ALU_CODES && fields.srca < SRCA_CODES && fields.srcb < SRCB_CODES &&
           fields.trgt < TRGT_CODES && fields.cond < COND_CODES;
}
