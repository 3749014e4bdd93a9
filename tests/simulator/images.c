#include "images.h"

#include <stdio.h>
#include <string.h>

enum { NOT_A_DIGIT = 16, BYTES_BESIDE_DATA = 5 };
enum { DATA = 0, END = 1 }; /* types */

/* What is written: a line of data is a colon, 21 bytes and LF, the end record a colon, 5 bytes and LF. */
enum { DATA_A_LINE = 16, LINE_LENGTH = 1 + 2 * (DATA_A_LINE + BYTES_BESIDE_DATA) + 1, END_LENGTH = 1 + 2 * BYTES_BESIDE_DATA + 1 };

static unsigned digit_value(char digit)
{
    static const char upper[] = "0123456789ABCDEF", lower[] = "0123456789abcdef";
    unsigned value = 0;

    while (value < NOT_A_DIGIT && digit != upper[value] && digit != lower[value])
        value++;
    return value;
}

static unsigned byte_of(const char *digits, size_t place)
{
    return digit_value(digits[2 * place]) * 16 + digit_value(digits[2 * place + 1]);
}

/* What is left of a text. */
struct rest {
    const char *next;
    size_t bytes;
};

static bool take(struct rest *rest, char wanted)
{
    if (rest->bytes == 0 || rest->next[0] != wanted)
        return false;
    rest->next++;
    rest->bytes--;
    return true;
}

static bool take_byte(struct rest *rest)
{
    if (rest->bytes < 2 || digit_value(rest->next[0]) == NOT_A_DIGIT || digit_value(rest->next[1]) == NOT_A_DIGIT)
        return false;
    rest->next += 2;
    rest->bytes -= 2;
    return true;
}

/* The first byte says how many there are. */
static bool take_bytes(struct rest *rest, struct record *record)
{
    const char *digits = rest->next;
    unsigned place;

    for (place = 0; place < record->count + BYTES_BESIDE_DATA; place++) {
        if (!take_byte(rest))
            return false;
        if (place == 0)
            record->count = byte_of(digits, 0);
        record->sum = (record->sum + byte_of(digits, place)) % 256;
    }
    record->address = byte_of(digits, 1) * 256 + byte_of(digits, 2);
    record->type = byte_of(digits, 3);
    record->digits = digits + 8;
    return true;
}

static bool take_line_end(struct rest *rest)
{
    return rest->bytes == 0 || take(rest, '\n') || (take(rest, '\r') && take(rest, '\n'));
}

static struct record take_record(struct rest *rest)
{
    struct record record = {.formed = false};

    record.formed = take(rest, ':') && take_bytes(rest, &record) && take_line_end(rest);
    return record;
}

void take_records(struct image *image, const uint8_t *text, size_t bytes)
{
    struct rest rest = {(const char *)text, bytes};
    bool formed = true;

    for (image->lines = 0; formed && rest.bytes > 0; image->lines++) {
        image->line[image->lines] = take_record(&rest);
        formed = image->line[image->lines].formed;
    }
}

static bool fits(const struct record *record, size_t words)
{
    if (record->type == END)
        return record->count == 0 && record->address == 0;
    return record->count % 4 == 0 && record->address % 4 == 0 && record->address + record->count <= 4 * words;
}

/* Numbers 10, 11, 12, 13 and 15, tested in this order. The end is that of the data record before. */
static unsigned fault_of(const struct record *record, size_t words, size_t end)
{
    if (!record->formed)
        return 10;
    if (record->sum != 0)
        return 11;
    if (record->type != DATA && record->type != END)
        return 12;
    if (!fits(record, words))
        return 13;
    return record->type == DATA && record->address < end ? 15 : 0;
}

static struct judgement judged(unsigned number, size_t line)
{
    struct judgement judgement = {number, line};

    return judgement;
}

struct judgement judge_image(const struct image *image, size_t words)
{
    size_t line, end = 0;

    for (line = 1; line <= image->lines; line++) {
        const struct record *record = &image->line[line - 1];
        unsigned fault = fault_of(record, words, end);

        if (fault != 0)
            return judged(fault, line);
        if (record->type == END)
            return line < image->lines ? judged(14, line + 1) : judged(0, 0);
        end = record->address + record->count;
    }
    return judged(14, image->lines);
}

/* Byte 4w is the most significant of word w. */
static void store_byte(uint32_t *memory, size_t address, unsigned byte)
{
    unsigned shift = 24 - address % 4 * 8;

    memory[address / 4] = (memory[address / 4] & ~((uint32_t)0xFF << shift)) | (uint32_t)byte << shift;
}

static unsigned loaded_byte(const uint32_t *memory, size_t address)
{
    return memory[address / 4] >> (24 - address % 4 * 8) & 0xFF;
}

void store_image(const struct image *image, uint32_t *memory)
{
    size_t line, place;

    for (line = 0; line < image->lines; line++)
        for (place = 0; place < image->line[line].count; place++)
            store_byte(memory, image->line[line].address + place, byte_of(image->line[line].digits, place));
}

size_t written_length(size_t words)
{
    return 4 * words / DATA_A_LINE * LINE_LENGTH + END_LENGTH;
}

/* Writes a line and, behind it, a zero that the next line takes the place of. */
static void write_line(const uint32_t *memory, size_t address, char *text)
{
    unsigned sum = (unsigned)(DATA_A_LINE + address / 256 + address % 256);
    size_t place;

    text += sprintf(text, ":%02X%04X%02X", DATA_A_LINE, (unsigned)address, DATA);
    for (place = 0; place < DATA_A_LINE; place++) {
        unsigned byte = loaded_byte(memory, address + place);

        text += sprintf(text, "%02X", byte);
        sum += byte;
    }
    sprintf(text, "%02X\n", (256 - sum % 256) % 256);
}

void write_text(const uint32_t *memory, size_t words, char *text)
{
    size_t address;

    for (address = 0; address < 4 * words; address += DATA_A_LINE) {
        write_line(memory, address, text);
        text += LINE_LENGTH;
    }
    memcpy(text, ":00000001FF\n", END_LENGTH);
}
