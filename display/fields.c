#include "fields.h"

#include <stdbool.h>
#include <stdio.h>

#include "../common/names.h"

/* FIELDS ends a line. */
static const int lines[FIELD_LINES][FIELDS + 1] = {
    {FIELD_COND, FIELD_ADDR, FIELD_IACK, FIELD_FTCH, FIELD_RD, FIELD_WR, FIELDS},
    {FIELD_TRGT, FIELD_SHFT, FIELD_ALU, FIELD_SRCA, FIELD_SRCB, FIELDS},
    {FIELD_AMUX, FIELD_MAR, FIELD_MBR, FIELD_PMUX, FIELD_S_SM, FIELD_C_SM, FIELD_S_IE, FIELD_C_IE, FIELD_LD_C, FIELD_LD_V, FIELD_LD_N,
     FIELD_LD_Z, FIELD_CSRC, FIELDS},
};

/* What the field says; false for a bit that is not set. A code that no table names is shown as its number. */
static bool tell_field(const struct field *field, uint64_t microword, char room[FIELDS_ROOM])
{
    unsigned code = code_of(field, microword);

    if (field->width == 1)
        snprintf(room, FIELDS_ROOM, "%s", field->name);
    else if (code < CODES_MOST && field->codes[code] != NULL)
        snprintf(room, FIELDS_ROOM, "%s %s", field->name, field->codes[code]);
    else
        snprintf(room, FIELDS_ROOM, "%s %u", field->name, code);
    return field->width > 1 || code == 1;
}

const char *tell_fields(uint64_t microword, size_t line, char room[FIELDS_ROOM])
{
    const char *gap = "";
    char told[FIELDS_ROOM];
    size_t length = 0, k;

    room[0] = '\0';
    for (k = 0; lines[line][k] != FIELDS; k++) {
        const struct field *field = &fields[lines[line][k]];

        if (!tell_field(field, microword, told))
            continue;
        length += (size_t)snprintf(room + length, FIELDS_ROOM - length, "%s%s", gap, told);
        gap = field->width == 1 ? " " : "  ";
    }
    return room;
}
