#include "board.h"

#include <string.h>

#include "../common/names.h"

/* The parts before PART_REGISTER. The request latch has no place in the state block. */
static const struct {
    const char *name;
    int place;
    uint32_t most;
} single[PART_REGISTER] = {
    {"pc", AVM_PC, UINT32_MAX},
    {"psw", AVM_PSW, AVM_PSW_ALL},
    {"ivec", AVM_IVEC, UINT32_MAX},
    {"ir", AVM_IR, UINT32_MAX},
    {"mar", AVM_MAR, UINT32_MAX},
    {"mbr", AVM_MBR, UINT32_MAX},
    {"mpc", AVM_MPC, AVM_PROGRAM_MOST - 1},
    {"ireq", -1, 1},
};

static const uint32_t *part_place(const struct board *board, size_t part)
{
    if (part >= PART_MEMORY)
        return &board->memory[part - PART_MEMORY];
    if (part >= PART_REGISTER)
        return &board->registers[part - PART_REGISTER];
    return part == PART_IREQ ? &board->ireq : &board->state[single[part].place];
}

uint32_t part_value(const struct board *board, size_t part)
{
    return *part_place(board, part);
}

void set_part(struct board *board, size_t part, uint32_t value)
{
    *(uint32_t *)part_place(board, part) = value;
}

uint32_t part_most(size_t part)
{
    return part < PART_REGISTER ? single[part].most : UINT32_MAX;
}

static bool on_clock(size_t part, enum clock clock)
{
    if (part == PART_IVEC)
        return false;
    return clock == MICROCYCLES || part < PART_SETTINGS || part >= PART_REGISTER;
}

/* A letter and then a number from the least to the most. */
static bool numbered(struct word word, char letter, size_t least, size_t most, size_t *number)
{
    struct word digits = {word.start + 1, word.length - 1};
    uint64_t found;

    if (word.start[0] != letter || !word_is_number(digits, most, &found) || found < least)
        return false;
    *number = (size_t)found;
    return true;
}

bool part_named(struct word word, enum clock clock, size_t m, size_t *part)
{
    size_t number;

    for (*part = 0; *part < PART_REGISTER; ++*part)
        if (word_is(word, single[*part].name))
            return on_clock(*part, clock);
    if (numbered(word, 'r', 1, AVM_REGISTERS - 1, &number))
        *part = PART_REGISTER + number;
    else if (numbered(word, 'm', 0, m - 1, &number))
        *part = PART_MEMORY + number;
    else
        return false;
    return true;
}

bool setting_named(struct word word, size_t *part)
{
    for (*part = 0; *part < PART_SETTINGS && !word_is(word, single[*part].name); ++*part)
        continue;
    return *part < PART_SETTINGS;
}

const char *log_name(size_t part, char room[TOLD_ROOM])
{
    if (part >= PART_MEMORY)
        snprintf(room, TOLD_ROOM, "m%u", (unsigned)(part - PART_MEMORY));
    else if (part >= PART_REGISTER)
        snprintf(room, TOLD_ROOM, "r%u", (unsigned)(part - PART_REGISTER));
    else
        snprintf(room, TOLD_ROOM, "%s", single[part].name);
    return room;
}

const char *told_name(size_t part, char room[TOLD_ROOM])
{
    if (part >= PART_MEMORY)
        snprintf(room, TOLD_ROOM, "memory word %u", (unsigned)(part - PART_MEMORY));
    else if (part >= PART_REGISTER)
        snprintf(room, TOLD_ROOM, "register %u", (unsigned)(part - PART_REGISTER));
    else
        snprintf(room, TOLD_ROOM, "%s", part == PART_PC ? "program counter" : "status word");
    return room;
}

/* Small numbers are counts and addresses, and large ones are patterns of bits. */
static const char *plain_value(uint32_t value, char room[TOLD_ROOM])
{
    snprintf(room, TOLD_ROOM, value <= 9999 ? "%lu" : "0x%lX", (unsigned long)value);
    return room;
}

const char *log_value(size_t part, uint32_t value, char room[TOLD_ROOM])
{
    if (part != PART_PSW)
        return plain_value(value, room);
    snprintf(room, TOLD_ROOM, "0x%02lX", (unsigned long)value);
    return room;
}

const char *told_value(size_t part, uint32_t value, char room[TOLD_ROOM])
{
    size_t k;

    if (part != PART_PSW)
        return plain_value(value, room);
    room[0] = '\0';
    for (k = 0; k < FLAGS; k++)
        if ((value & flags[k].mask) != 0) {
            strcat(room, room[0] == '\0' ? "" : " ");
            strcat(room, flags[k].name);
        }
    return value == 0 ? strcpy(room, "no flag") : room;
}

/* The first word of memory from that one on that differs; m if there is none. Mostly there is none, and where there is one, most of the
   words before it agree: both are found by comparing many words at once. */
static size_t next_word_apart(const struct board *one, const struct board *other, size_t from)
{
    const size_t stretch = AVM_WORDS_FEWEST, size = sizeof one->memory[0];
    size_t word = from;

    if (from >= one->m || memcmp(one->memory + from, other->memory + from, (one->m - from) * size) == 0)
        return one->m;
    while (one->memory[word] == other->memory[word])
        word += word % stretch == 0 && memcmp(one->memory + word, other->memory + word, stretch * size) == 0 ? stretch : 1;
    return word;
}

size_t next_difference(const struct board *one, const struct board *other, enum clock clock, size_t from)
{
    size_t part = from, word;

    while (part < PART_MEMORY && (!on_clock(part, clock) || part_value(one, part) == part_value(other, part)))
        part++;
    if (part < PART_MEMORY)
        return part;
    word = next_word_apart(one, other, part - PART_MEMORY);
    return word < one->m ? PART_MEMORY + word : PARTS;
}

bool boards_agree(const struct board *one, const struct board *other, enum clock clock)
{
    return next_difference(one, other, clock, 0) == PARTS;
}
