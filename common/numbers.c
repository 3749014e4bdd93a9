#include "numbers.h"

#include <stdarg.h>
#include <string.h>

#include "names.h"
#include "text.h"

const char *meaning(uint64_t number)
{
    static const char *const meanings[] = {
        "nothing was refused",
        "the length of memory is not " MEMORY_LENGTH,
        "there are not 32 registers",
        "register 0 does not hold 0",
        "the microprogram has too few or too many words",
        "the microword has a bit or a code that no table names",
        "MPC stands outside the microprogram, or the phase number is above 3",
        "a request byte is out of range",
        "a microcycle would leave the microprogram",
        "the text is too long",
        "this line is not a record",
        "the bytes of this record do not add up to 0 modulo 256",
        "this type of record is not read",
        "the count, the address or the end of this record is wrong",
        "the end record is missing or is not the last line",
        "this record starts before the end of the one before it",
        "the text does not fit",
        "the microprogram can go on to a word that it does not have",
        "a walk can be away from fetch for more than 64 microcycles",
    };

    return number < sizeof meanings / sizeof meanings[0] ? meanings[number] : "this number is not known";
}

/* The meaning, the number and what goes with it. */
static void tell(char room[WORDS_ROOM], uint64_t number, const char *format, ...)
{
    size_t length = (size_t)snprintf(room, WORDS_ROOM, "%s (number %u): ", meaning(number), (unsigned)number);
    va_list values;

    va_start(values, format);
    vsnprintf(room + length, WORDS_ROOM - length, format, values);
    va_end(values);
}

/* Of several fields with a code that no table names the first one from the top is told. */
static void tell_microword(size_t at, uint64_t word, char room[WORDS_ROOM])
{
    const struct field *field = fields;

    while (field < fields + FIELDS - 1 && code_of(field, word) <= field->most)
        field++;
    if (word >> AVM_MICROWORD_BITS != 0)
        tell(room, AVM_BAD_MICROWORD, "expected no bit above %d in word %zu, found 0x%llX", AVM_MICROWORD_BITS - 1, at,
             (unsigned long long)word);
    else
        tell(room, AVM_BAD_MICROWORD, "expected a code from 0 to %u in field %s of word %zu, found %u", field->most, field->name, at,
             code_of(field, word));
}

/* An address outside that a word can lead to, as avm_check counts its next addresses. */
static size_t outside(size_t at, uint64_t word, size_t words)
{
    unsigned condition = AVM_FIELD(word, COND);
    size_t address = AVM_FIELD(word, ADDR);

    if (condition == AVM_COND_JOP)
        return words < AVM_JOP_FIRST ? AVM_JOP_FIRST : words;
    return condition == AVM_COND_STEP || address < words ? at + 1 : address;
}

void tell_check(avm_answer answer, const uint64_t *program, size_t words, char room[WORDS_ROOM])
{
    size_t at = (size_t)answer.at;

    if (answer.number == AVM_BAD_PROGRAM_LENGTH)
        tell(room, answer.number, "expected 1 to %d, found %zu", AVM_PROGRAM_MOST, words);
    else if (answer.number == AVM_BAD_MICROWORD)
        tell_microword(at, program[at], room);
    else if (answer.number == AVM_WALK_LEAVES)
        tell(room, answer.number, "its words are 0 to %zu, and word %zu can lead to word %zu; change COND or ADDR there, or add what is "
             "missing", words - 1, at, outside(at, program[at], words));
    else
        tell(room, answer.number, "it goes in a circle, and after exactly %d microcycles it can stand on word %zu; make every way from "
             "there lead to word 0", AVM_WALK_MOST, at);
}

/* A line of an image, without its LF. */
static struct word line_at(const char *text, size_t bytes, uint64_t number)
{
    const char *const end = text + bytes;
    struct word line = {text, 0};
    const char *feed;

    for (;;) {
        feed = memchr(line.start, '\n', (size_t)(end - line.start));
        line.length = (size_t)((feed == NULL ? end : feed) - line.start);
        if (--number == 0 || feed == NULL)
            return line;
        line.start = feed + 1;
    }
}

/* Byte k of a line that is of record form: 0 is the count, 1 and 2 are the address, 3 is the type. */
static unsigned byte_of(struct word line, size_t k)
{
    return digit(line.start[1 + 2 * k]) * 16 + digit(line.start[2 + 2 * k]);
}

static unsigned count_of(struct word line)
{
    return byte_of(line, 0);
}

static unsigned address_of(struct word line)
{
    return byte_of(line, 1) * 256 + byte_of(line, 2);
}

static void tell_sum(struct word line, char room[WORDS_ROOM])
{
    size_t checksum = count_of(line) + 4, k;
    unsigned sum = 0;

    for (k = 0; k < checksum; k++)
        sum += byte_of(line, k);
    tell(room, AVM_BAD_SUM, "expected the checksum %02X, found %02X", (256 - sum % 256) % 256, byte_of(line, checksum));
}

static void tell_extent(struct word line, size_t m, char room[WORDS_ROOM])
{
    if (byte_of(line, 3) == 1)
        tell(room, AVM_BAD_EXTENT, "expected count 0 and address 0 in the end record, found count %u and address %u", count_of(line),
             address_of(line));
    else
        tell(room, AVM_BAD_EXTENT, "expected multiples of 4, and an end of at most %zu for %zu words, found count %u, address %u, end %u",
             4 * m, m, count_of(line), address_of(line), address_of(line) + count_of(line));
}

/* The line is the one after the end record, or the last of a text that has none: only an end record before it tells which. */
static void tell_end(avm_answer answer, const char *text, size_t bytes, char room[WORDS_ROOM])
{
    if (answer.at > 1 && byte_of(line_at(text, bytes, answer.at - 1), 3) == 1)
        tell(room, AVM_BAD_END, "expected nothing after the end record, found this line");
    else
        tell(room, AVM_BAD_END, "expected :00000001FF as the last line, found no end record");
}

static void tell_line(avm_answer answer, struct word line, struct word before, size_t m, char room[WORDS_ROOM])
{
    char quoted[QUOTED_ROOM];

    if (answer.number == AVM_NOT_A_RECORD)
        tell(room, answer.number, "expected a colon and then pairs of hexadecimal digits, five and as many more as the first pair says, "
             "found %s", line.length == 0 || word_is(line, "\r") ? "a blank line" : quote(line, quoted));
    else if (answer.number == AVM_BAD_SUM)
        tell_sum(line, room);
    else if (answer.number == AVM_BAD_TYPE)
        tell(room, answer.number, "expected 00 (data) or 01 (end), found %02X", byte_of(line, 3));
    else if (answer.number == AVM_BAD_EXTENT)
        tell_extent(line, m, room);
    else
        tell(room, answer.number, "expected an address of %u or more, found %u", address_of(before) + count_of(before), address_of(line));
}

void tell_read(avm_answer answer, size_t m, const char *text, size_t bytes, char room[WORDS_ROOM])
{
    if (answer.number == AVM_TEXT_TOO_LONG)
        tell(room, answer.number, "expected at most %d bytes, found %zu", AVM_TEXT_MOST, bytes);
    else if (answer.number == AVM_BAD_END)
        tell_end(answer, text, bytes, room);
    else
        tell_line(answer, line_at(text, bytes, answer.at), line_at(text, bytes, answer.at > 1 ? answer.at - 1 : 1), m, room);
}
