#include "lending.h"

#include <ctype.h>
#include <string.h>

#include "../engine/hand.h"

enum { SELDOM = 12, AT_TIMES = 64 }; /* chances, of 256 */

/* Words of memory: mostly one of the small legal lengths, which cost less; or any legal one, a few times 8, or any number. */
static size_t take_length(struct bytes *bytes)
{
    uint8_t form = take_byte(bytes);

    if (form < 256 - SELDOM)
        return (size_t)16 << form % 4;
    switch (form % 3) {
    case 0: return (size_t)16 << take_byte(bytes) % 11;
    case 1: return take_byte(bytes) % 16u * 8;
    default: return take_number(bytes, 2) % (MEMORY_ROOM + 1);
    }
}

static void fill(const struct bytes *bytes, uint32_t *words, size_t length)
{
    struct bytes rest = *bytes;
    size_t place;

    for (place = 0; place < length; place++) {
        if (rest.left < sizeof words[0])
            rest = *bytes;
        words[place] = (uint32_t)take_number(&rest, sizeof words[0]);
    }
}

/* Of five bytes: codes that the tables lack become others. */
static uint64_t take_legal_word(struct bytes *bytes)
{
    struct microword word = microword_fields(take_number(bytes, 5));

    word.alu %= ALU_CODES;
    word.srca %= SRCA_CODES;
    word.srcb %= SRCB_CODES;
    word.trgt %= TRGT_CODES;
    word.cond %= COND_CODES;
    return pack(word);
}

/* With or without bits above the fields. */
static uint64_t take_any_word(struct bytes *bytes)
{
    return take_number(bytes, take_chance(bytes, AT_TIMES) ? 8 : 5);
}

/* Words of a program: any legal number, but often 64, or about the 36 that jop needs; or any number. */
static size_t take_words(struct bytes *bytes)
{
    uint8_t form = take_byte(bytes);

    switch (form / 64) {
    case 0: return 64;
    case 1: return 35u + form % 2;
    case 2: return 1u + form % 64;
    default: return form < 256 - SELDOM ? 1u + form % 64 : take_number(bytes, 2) % (PROGRAM_ROOM + 1);
    }
}

/* A few words that need not be legal. */
static void spoil_program(struct bytes *bytes, struct inputs *in)
{
    while (in->words > 0 && take_chance(bytes, AT_TIMES)) {
        size_t place = take_byte(bytes) % in->words;

        in->program[place] = take_any_word(bytes);
    }
}

void take_program(struct bytes *bytes, struct inputs *in)
{
    size_t place;

    in->words = take_words(bytes);
    for (place = 0; place < in->words; place++)
        in->program[place] = take_legal_word(bytes);
    spoil_program(bytes, in);
}

void take_store(struct bytes *bytes, struct inputs *in)
{
    size_t place;

    in->words = take_words(bytes);
    for (place = 0; place < in->words; place++) {
        unsigned cond = take_byte(bytes) % COND_CODES;

        lead(in, place, cond, take_byte(bytes) % 64u);
    }
    spoil_program(bytes, in);
}

static void take_state(struct bytes *bytes, struct inputs *in)
{
    size_t k;

    for (k = 0; k < AVM_STATE; k++)
        in->state[k] = take_word(bytes);
    if (in->words > 0 && !take_chance(bytes, SELDOM))
        in->state[AVM_MPC] %= (uint32_t)in->words;
    for (k = 0; k < AVM_LATCHES; k++)
        in->latches[k] = take_word(bytes);
    in->mir = (take_chance(bytes, SELDOM) ? take_any_word : take_legal_word)(bytes);
    in->phase = take_chance(bytes, SELDOM) ? 4 + take_word(bytes) : take_byte(bytes) % 4u;
}

static void take_registers(struct bytes *bytes, struct inputs *in)
{
    size_t number;

    in->count = take_chance(bytes, SELDOM) ? take_byte(bytes) % (REGISTERS_ROOM + 1u) : AVM_REGISTERS;
    for (number = 0; number < in->count; number++)
        in->registers[number] = take_word(bytes);
    if (!take_chance(bytes, SELDOM))
        in->registers[0] = 0;
}

static void take_requests(struct bytes *bytes, struct inputs *in, uint8_t highest)
{
    enum { MOST = 96 };
    bool any = take_chance(bytes, SELDOM); /* bytes up to 7 */
    size_t place;

    in->bytes = take_byte(bytes) % MOST;
    for (place = 0; place < in->bytes; place++) {
        uint8_t request = take_byte(bytes);

        in->requests[place] = any ? request % 8 : request & highest;
    }
}

void take_machine(struct bytes *bytes, struct inputs *in, uint8_t highest_request)
{
    in->m = take_length(bytes);
    take_registers(bytes, in);
    take_state(bytes, in);
    take_requests(bytes, in, highest_request);
    fill(bytes, in->memory, in->m);
}

void take_raw_text(struct bytes *bytes, struct lent_image *image)
{
    add_bytes(image, bytes->next, bytes->left);
    bytes->left = 0;
}

/* At the end of the record before or a little further; in a small memory or near it; or anywhere. */
static unsigned take_address(struct bytes *bytes, unsigned form, unsigned end)
{
    if (form % 4 < 2)
        return end + take_byte(bytes) % 4u * 4;
    return form % 4 == 2 ? take_byte(bytes) % 32u * 4 : (unsigned)take_number(bytes, 2);
}

static void lower_case(struct lent_image *image)
{
    size_t place;

    for (place = 0; place < image->bytes; place++)
        image->text[place] = (uint8_t)tolower(image->text[place]);
}

/* A record of data mostly, now and then an end record. Its sum is right, but a character may be changed; and its line's end. Answers where
   the next one may start. */
static unsigned take_record(struct bytes *bytes, struct lent_image *image, unsigned end)
{
    static const char *const line_ends[] = {"\n", "\r\n", "\n", "\r\n", "\n", "\r", "", "\n\n"};
    unsigned form = take_byte(bytes), address = take_address(bytes, form, end) % 65536;
    unsigned count = take_chance(bytes, AT_TIMES) ? take_byte(bytes) : form / 4 % 4 * 4;
    unsigned type = take_chance(bytes, AT_TIMES) ? take_byte(bytes) % 4u : 0;

    if (form >= 256 - SELDOM)
        type = 1, address = count = 0;
    add_record(image, count, address, type, take_byte(bytes));
    if (take_chance(bytes, SELDOM)) {
        size_t place = image->bytes - 1 - take_byte(bytes) % 11u; /* no record has fewer characters */

        image->text[place] = take_byte(bytes);
    }
    if (take_chance(bytes, SELDOM))
        lower_case(image);
    add(image, line_ends[take_byte(bytes) % COUNT(line_ends)]);
    return address + count;
}

void take_record_text(struct bytes *bytes, struct lent_image *image)
{
    enum { MOST = 40 };
    unsigned form = take_byte(bytes), end = 0, records;

    for (records = 0; records < MOST && bytes->left > 0; records++)
        end = take_record(bytes, image, end);
    if ((form & 3) != 0)
        add(image, (form & 4) == 0 ? ":00000001FF\n" : ":00000001FF");
}

/* The text so far again and again. */
static void repeat_text(struct lent_image *image, size_t length)
{
    size_t place;

    if (image->bytes == 0)
        add(image, ":0000000000\n");
    for (place = image->bytes; place < length; place++)
        image->text[place] = image->text[place - image->bytes];
    image->bytes = length;
}

void take_image(struct bytes *bytes, struct lent_image *image, one_text *take_text)
{
    uint8_t repeated = take_byte(bytes);

    start_image(image, take_length(bytes));
    take_text(bytes, image);
    if (repeated >= 256 - 16)
        repeat_text(image, AVM_TEXT_MOST - 8 + repeated % 16);
}

void take_room(struct bytes *bytes, struct lent_image *image)
{
    size_t needed;

    image->m = take_length(bytes);
    needed = AVM_WRITTEN(image->m);
    image->bytes = needed <= AVM_WRITTEN(AVM_WORDS_MOST) ? needed - 8 + take_byte(bytes) % 16 : take_byte(bytes);
    memset(image->text, take_byte(bytes), image->bytes);
    fill(bytes, image->memory, image->m);
}
