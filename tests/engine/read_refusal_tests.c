/* Texts that avm_read refuses, with which number and line. Memory has a word of its own in every place and must be as lent after each. */
#include <string.h>

#include "hand.h"
#include "images.h"

#define EXAMPLE ":0400000000000010EC"
#define END ":00000001FF"

static struct lent_image image;

struct row {
    const char *text;
    uint64_t number, at;
};

static void refuse_rows(const struct row *rows, size_t count)
{
    size_t k;

    for (k = 0; k < count; k++) {
        stand_at_row(k);
        start_image(&image, 16);
        add(&image, rows[k].text);
        check_read_refused(&image, rows[k].number, rows[k].at);
    }
}

/* Lines that are not of record form, however they end. */
static const char *const not_records[] = {
    /* no colon, or not one colon at the start */
    "0400000000000010EC", ";0400000000000010EC", " :0400000000000010EC", "::0400000000000010EC", "S0400000000000010EC",
    /* a digit or a byte too few or too many; four bytes are too few for any record */
    ":0400000000000010E", ":0400000000000010", ":0400000000000010EC0", ":0400000000000010EC00", ":00000001F", ":00000001FF0",
    ":00000001FF00", ":", ":0", ":00", ":000000", ":00000000", ":FF", ":04",
    /* a blank at the end, or something else that could pass for one */
    ":0400000000000010EC ", ":0400000000000010EC\t", ":0400000000000010EC\v", ":00000001FF ", ":00000001FF;", ":00000001FF\f",
    /* two records in one line */
    EXAMPLE END, END END,
    /* counts that say more or less than there is, with sums that are right */
    ":0500000000000010EB", ":0800000000000010E8", ":0300000000000010ED", ":0000000000000010F0", ":FF00000000000010F1", ":01000001FE",
    /* blanks and signs between digits */
    ": 0400000000000010EC", ":04 000000000010EC", ":0x00000000000010EC", ":+400000000000010EC", ":-400000000000010EC",
    /* a CR that no LF follows, in the line and at its end */
    ":04000000\r00000010EC", EXAMPLE "\r\r", "\r:00000001FF", END "\r:", END "\rX",
    /* blanks for a line */
    " ", "\t", "  ",
};

/* As the first line, after a record, as the last line without an end, and between lines that end with CR LF. */
static void refuse_line(const char *line)
{
    static const struct { const char *before, *behind; uint64_t at; } settings[] = {
        {"", "\n" END "\n", 1},
        {EXAMPLE "\n", "\n" END "\n", 2},
        {EXAMPLE "\n", "", 2},
        {EXAMPLE "\r\n:00000400FC\r\n", "\r\n" END "\r\n", 3},
    };
    size_t k;

    for (k = 0; k < COUNT(settings); k++) {
        start_image(&image, 16);
        add(&image, settings[k].before);
        add(&image, line);
        add(&image, settings[k].behind);
        check_read_refused(&image, AVM_NOT_A_RECORD, settings[k].at);
    }
}

static void lines_that_are_no_records(void)
{
    size_t k;

    for (k = 0; k < COUNT(not_records); k++) {
        stand_at_row(k);
        refuse_line(not_records[k]);
    }
}

/* A blank line is one as soon as its end is there, and before the end record. */
static const struct row blank_lines[] = {
    {"\n", 10, 1},
    {"\r\n", 10, 1},
    {"\r", 10, 1},
    {"\n\n", 10, 1},
    {"\n" END "\n", 10, 1},
    {EXAMPLE "\n\n" END "\n", 10, 2},
    {EXAMPLE "\r\n\r\n" END "\r\n", 10, 2},
    {EXAMPLE "\n\r" END "\n", 10, 2},
    {EXAMPLE "\n\n", 10, 2},
};

static void blank_lines_are_refused(void)
{
    refuse_rows(blank_lines, COUNT(blank_lines));
}

/* The last digits are there, and then a CR that is no end of a line. */
static const struct row lone_returns[] = {
    {EXAMPLE "\r" END "\n", 10, 1},
    {EXAMPLE "\r" END "\r", 10, 1},
    {EXAMPLE "\r", 10, 1},
    {END "\r", 10, 1},
    {END "\r\r\n", 10, 1},
    {EXAMPLE "\n" END "\r", 10, 2},
    {EXAMPLE "\r\n" END "\r", 10, 2},
    {EXAMPLE "\r\r\n" END "\r\n", 10, 1},
    {EXAMPLE "\n" END "\r" END "\n", 10, 2},
};

static void lone_returns_are_refused(void)
{
    refuse_rows(lone_returns, COUNT(lone_returns));
}

/* The neighbours of the digits in ASCII, bytes with the high bit set, line ends and zero. */
static void no_digit_in_any_place(void)
{
    static const uint8_t bytes[] = {'/', ':', '@', 'G', '`', 'g', 'Z', 'z', ' ', '-', 'x', '\n', '\r', 0, 0x10, 0x80, 0xB0, 0xC1, 0xFF};
    size_t place, k;

    for (place = 1; place < strlen(EXAMPLE); place++)
        for (k = 0; k < COUNT(bytes); k++) {
            stand_at_row(place);
            start_image(&image, 16);
            add(&image, ":0000000000\n" EXAMPLE "\n" END "\n");
            image.text[12 + place] = bytes[k];
            check_read_refused(&image, AVM_NOT_A_RECORD, 2);
        }
}

static void compare_with_simulator(void)
{
    static uint32_t memory[MEMORY_ROOM];
    avm_answer want;

    memcpy(memory, image.memory, image.m * sizeof memory[0]);
    want = simulator.read(memory, image.m, image.text, image.bytes);
    expect_same_answer("engine", engine.read(image.memory, image.m, image.text, image.bytes), want);
    expect_same_words("engine", "memory", image.memory, memory, image.m);
}

/* In the place of another byte, and inserted before it; also at the text's end. */
static void every_byte_in_every_place(void)
{
    const char *const text = EXAMPLE "\r\n" EXAMPLE "\n" END "\r\n";
    size_t place, inserted;
    unsigned byte;

    for (place = 0; place <= strlen(text); place++)
        for (byte = 0; byte < 256; byte++)
            for (inserted = 0; inserted <= 1; inserted++) {
                uint8_t put = (uint8_t)byte;

                stand_at_row(place);
                start_image(&image, 16);
                add_bytes(&image, text, place);
                add_bytes(&image, &put, 1);
                if (place + 1 - inserted <= strlen(text))
                    add(&image, text + place + 1 - inserted);
                compare_with_simulator();
            }
}

/* Of the 256 checksums one is right. */
static void every_wrong_sum(void)
{
    static const char digits[] = "0123456789abcdef";
    unsigned sum;

    for (sum = 0; sum < 256; sum++) {
        stand_at_row(sum);
        start_image(&image, 16);
        add_example(&image);
        add_end(&image);
        image.text[17] = (uint8_t)digits[sum >> 4];
        image.text[18] = (uint8_t)digits[sum & 15];
        if (sum != 0xEC)
            check_read_refused(&image, AVM_BAD_SUM, 1);
        start_image(&image, 16);
        add_example(&image);
        add_end(&image);
        image.text[29] = (uint8_t)digits[sum >> 4];
        image.text[30] = (uint8_t)digits[sum & 15];
        if (sum != 0xFF)
            check_read_refused(&image, AVM_BAD_SUM, 2);
    }
}

/* A sum that is wrong by what one digit in any byte of the record says. */
static const struct row wrong_sums[] = {
    {":0400010000000010EC\n" END "\n", 11, 1},
    {":0401000000000010EC\n" END "\n", 11, 1},
    {":0400000100000010EC\n" END "\n", 11, 1},
    {":0400000000000011EC\n" END "\n", 11, 1},
    {":0400000010000010EC\n" END "\n", 11, 1},
    {":0400000080000010EC\n" END "\n", 11, 1},
    {EXAMPLE "\n:0400040000000010EC\n" END "\n", 11, 2},
    {EXAMPLE "\n:00000001FE", 11, 2},
    {EXAMPLE "\n:0000000100\n", 11, 2},
};

static void sums_that_are_wrong(void)
{
    every_wrong_sum();
    refuse_rows(wrong_sums, COUNT(wrong_sums));
}

/* With the right sum, on the first line and on a later one. The first row is how srec_cat begins unless it is told otherwise. */
static void every_other_type(void)
{
    unsigned type;

    start_image(&image, 16);
    add(&image, ":020000040000FA\n" EXAMPLE "\n" END "\n");
    check_read_refused(&image, AVM_BAD_TYPE, 1);
    for (type = 2; type < 256; type++) {
        stand_at_row(type);
        start_image(&image, 16);
        add_record(&image, type % 8, 0, type, 0);
        add(&image, "\n" END "\n");
        check_read_refused(&image, AVM_BAD_TYPE, 1);
        start_image(&image, 16);
        add(&image, EXAMPLE "\n");
        add_record(&image, 4, 4, type, 0);
        add(&image, "\r\n" END "\r\n");
        check_read_refused(&image, AVM_BAD_TYPE, 2);
    }
}

/* 4M is 40 in hex. The records at FFFC end at 10000 and 10004, which would be 0 and 4 if only 16 bits were kept. */
static const struct row extents[] = {
    {":020000000000FE\n" END "\n", 13, 1},
    {":0400020000000010EA\n" END "\n", 13, 1},
    {":0400400000000010AC\n" END "\n", 13, 1},
    {":08003C0000000010000000109C\n" END "\n", 13, 1},
    {":00004400BC\n" END "\n", 13, 1},
    {":00000200FE\n" END "\n", 13, 1},
    {":04FFFC0000000010F1\n" END "\n", 13, 1},
    {":08FFFC000000001000000010DD\n" END "\n", 13, 1},
    {EXAMPLE "\n:020004000000FA\n" END "\n", 13, 2},
    {EXAMPLE "\n:0400400000000010AC\n" END "\n", 13, 2},
    /* end records */
    {":0400000100000010EB\n", 13, 1},
    {":00000401FB\n", 13, 1},
    {":0100000100FE\n", 13, 1},
    {":00000101FE\n", 13, 1},
    {":00010001FE", 13, 1},
    {":00FF000100", 13, 1},
    {EXAMPLE "\n:00000401FB\n", 13, 2},
    {EXAMPLE "\n:00000401FB\n" END "\n", 13, 2},
};

static void extents_that_are_wrong(void)
{
    refuse_rows(extents, COUNT(extents));
}

/* All counts at address 0 of 64 words: 255 too is no multiple of 4. */
static void every_wrong_count(void)
{
    unsigned count;

    for (count = 1; count < 256; count++)
        if (count % 4 != 0) {
            stand_at_row(count);
            start_image(&image, 64);
            add_record(&image, count, 0, 0, 1);
            add(&image, "\n" END "\n");
            check_read_refused(&image, AVM_BAD_EXTENT, 1);
        }
}

/* Counts of 0, 4 and 60 at every address, beside the rule worked out here in numbers that don't wrap. */
static void every_address(void)
{
    static const unsigned counts[] = {0, 4, 60};
    static const size_t memories[] = {16, 64, 16384};
    unsigned long address;
    size_t k, m;

    for (m = 0; m < COUNT(memories); m++)
        for (k = 0; k < COUNT(counts); k++)
            for (address = 0; address < 65536; address++) {
                bool fits = address % 4 == 0 && address + counts[k] <= memories[m] * 4;
                avm_answer answer;

                image.m = memories[m];
                image.bytes = 0;
                add_record(&image, counts[k], (unsigned)address, 0, 0);
                add(&image, "\n" END);
                answer = engine.read(image.memory, image.m, image.text, image.bytes);
                stand_at_row(address);
                expect_same_answer("engine", answer, fits ? taken(0) : refused(AVM_BAD_EXTENT, 1));
            }
}

/* One word beyond memory, in each legal memory, is too far; at M = 16384 the end is 10004 in hex. */
static void one_word_too_far(void)
{
    size_t m;

    for (m = 16; m <= 16384; m *= 2) {
        stand_at_row(m);
        start_image(&image, m);
        add_record(&image, 4, 0, 0, 0);
        add(&image, "\n");
        add_record(&image, 12, (unsigned)m * 4 - 8, 0, 0);
        add(&image, "\n" END "\n");
        check_read_refused(&image, AVM_BAD_EXTENT, 2);
    }
}

/* Where nothing ends the image, the number of lines; where something follows the end, its line, whatever it is. */
static const struct row ends[] = {
    {"", 14, 0},
    {EXAMPLE, 14, 1},
    {EXAMPLE "\n", 14, 1},
    {EXAMPLE "\r\n", 14, 1},
    {":0000000000\n:0000000000\n:0000000000", 14, 3},
    {":0000000000\n:0000000000\n:0000000000\n", 14, 3},
    {END "\n\n", 14, 2},
    {END "\n\r\n", 14, 2},
    {END "\n\r", 14, 2},
    {END "\r\n\n", 14, 2},
    {END "\n ", 14, 2},
    {END "\n:", 14, 2},
    {END "\n" END, 14, 2},
    {END "\n" END "\n", 14, 2},
    {END "\n" END "\n" END "\n", 14, 2},
    {EXAMPLE "\n" END "\n" EXAMPLE "\n", 14, 3},
    {EXAMPLE "\n" END "\n:0400040000000010E8\n" END "\n", 14, 3},
    {EXAMPLE "\n" END "\n:0400000000000010ED\n", 14, 3},
    {EXAMPLE "\n" END "\n:0400000200000010EA\n", 14, 3},
    {EXAMPLE "\n" END "\n:0400020000000010EA\n", 14, 3},
    {EXAMPLE "\r\n" END "\r\nnot a record", 14, 3},
};

static void ends_that_are_wrong(void)
{
    refuse_rows(ends, COUNT(ends));
    start_image(&image, 16);
    add_end(&image);
    add_bytes(&image, "", 1);
    check_read_refused(&image, AVM_BAD_END, 2);
}

/* Starts before the end: in the same place, inside, one word before; after a record of no data, and by one. */
static const struct row orders[] = {
    {EXAMPLE "\n" EXAMPLE "\n" END "\n", 15, 2},
    {":0400080000000010E4\n" EXAMPLE "\n" END "\n", 15, 2},
    {":080000000000001000000010D8\n:0400040000000010E8\n" END "\n", 15, 2},
    {":00000800F8\n:0400040000000010E8\n" END "\n", 15, 2},
    {":00000800F8\n" EXAMPLE "\n" END "\n", 15, 2},
    {":080000000000001000000010D8\n:00000400FC\n" END "\n", 15, 2},
    {":00004000C0\n" EXAMPLE "\n" END "\n", 15, 2},
    {EXAMPLE "\n:0000000000\n" END "\n", 15, 2},
    {EXAMPLE "\n:0400080000000010E4\n:0400040000000010E8\n" END "\n", 15, 3},
    {EXAMPLE "\n:00000400FC\n:00000800F8\n:0400040000000010E8\n" END "\n", 15, 4},
    {":0400080000000010E4\n" EXAMPLE, 15, 2},
};

static void records_out_of_order(void)
{
    refuse_rows(orders, COUNT(orders));
}

/* The line comes after eight bytes of data and is wrong in two ways each time. */
static const struct row two_ways[] = {
    {":0400080000000010E5 ", 10, 2},
    {":0400080200000010E20", 10, 2},
    {":04000A0000000010E2G", 10, 2},
    {EXAMPLE " ", 10, 2},
    {":0400080200000010E3", 11, 2},
    {":04000A0000000010E3", 11, 2},
    {":0400000000000010ED", 11, 2},
    {":00000401FC", 11, 2},
    {":04000A0200000010E0", 12, 2},
    {":020008040000F2", 12, 2},
    {":0400000200000010EA", 12, 2},
    {":0400020000000010EA", 13, 2},
    {":020004000000FA", 13, 2},
    {":00000201FD", 13, 2},
};

static void lines_wrong_in_two_ways(void)
{
    static const char *const behind[] = {"\n" END "\n", "\n" END "\n" END, "\n", ""};
    size_t k, ending;

    for (k = 0; k < COUNT(two_ways); k++)
        for (ending = 0; ending < COUNT(behind); ending++) {
            stand_at_row(k);
            start_image(&image, 16);
            add(&image, ":080000000000001000000010D8\n");
            add(&image, two_ways[k].text);
            add(&image, behind[ending]);
            check_read_refused(&image, two_ways[k].number, two_ways[k].at);
        }
    /* from 4, before the end of the last record, to 68, above 4M */
    start_image(&image, 16);
    add(&image, ":080000000000001000000010D8\n");
    add_record(&image, 64, 4, 0, 0);
    check_read_refused(&image, AVM_BAD_EXTENT, 2);
}

/* One fault on the second line and another one on the third: the lines decide, not the numbers. */
static void the_first_wrong_line(void)
{
    static const struct { const char *line; uint64_t number; } faults[] = {
        {":0400080000000010E4 ", 10}, {":0400080000000010E5", 11}, {":0400080200000010E2", 12}, {":04000A0000000010E2", 13},
        {EXAMPLE, 15},                {"", 10},                    {":020000040000FA", 12},
    };
    size_t first, second;

    for (first = 0; first < COUNT(faults); first++)
        for (second = 0; second < COUNT(faults); second++) {
            stand_at_row(first);
            start_image(&image, 16);
            add(&image, ":080000000000001000000010D8\n");
            add(&image, faults[first].line);
            add(&image, "\n");
            add(&image, faults[second].line);
            add(&image, "\n");
            check_read_refused(&image, faults[first].number, 2);
        }
}

/* A record takes 12 bytes at least, so no text has many more lines that are tested than this. */
static void far_down(void)
{
    size_t line;

    start_image(&image, 16);
    for (line = 1; line < 21000; line++)
        add(&image, ":00000400FC\n");
    add(&image, ":0000000000\n" END "\n");
    check_read_refused(&image, AVM_BAD_ORDER, 21000);
}

static void texts_that_are_too_long(void)
{
    static const size_t lengths[] = {AVM_TEXT_MOST + 1, AVM_TEXT_MOST + 2, TEXT_ROOM};
    size_t k;

    start_image(&image, 16);
    fill_with_empty_records(&image, 0, AVM_TEXT_MOST);
    add(&image, "\n");
    expect(image.bytes == 262145, "the text has %zu bytes", image.bytes);
    check_read_refused(&image, AVM_TEXT_TOO_LONG, 0);
    for (k = 0; k < COUNT(lengths); k++) {
        image.text[0] = 'x';
        image.bytes = lengths[k];
        check_read_refused(&image, AVM_TEXT_TOO_LONG, 0);
    }
    image.bytes = AVM_TEXT_MOST;
    check_read_refused(&image, AVM_NOT_A_RECORD, 1);
}

/* Whatever the text is: one to take, none, a line to refuse, one that is too long. */
static void memory_lengths(void)
{
    static const size_t bad[] = {0, 1, 8, 15, 17, 24, 48, 16383, 16385, 24576, 32768};
    static const size_t lengths[] = {0, 1, 32, AVM_TEXT_MOST + 1};
    size_t k, text;

    for (k = 0; k < COUNT(bad); k++)
        for (text = 0; text < COUNT(lengths); text++) {
            stand_at_row(k);
            start_image(&image, bad[k]);
            add(&image, EXAMPLE "\n" END "\n");
            image.bytes = lengths[text];
            check_read_refused(&image, AVM_BAD_MEMORY_LENGTH, 0);
        }
}

/* A part of one block is lent each time, with an empty text: exactly the eleven legal lengths come as far as 14. */
static void every_memory_length(void)
{
    size_t m, legal = 16;

    start_image(&image, MEMORY_ROOM);
    for (m = 0; m <= MEMORY_ROOM; m++) {
        bool is_legal = m == legal && m <= 16384;

        stand_at_row(m);
        expect_same_answer("engine", engine.read(image.memory, m, NULL, 0), refused(is_legal ? AVM_BAD_END : AVM_BAD_MEMORY_LENGTH, 0));
        legal = is_legal ? legal * 2 : legal;
    }
}

const struct test read_refusal_tests[] = {
    {"read: M = 8, 24, 0, 15 and 32768 are refused with 1, whatever the text is", memory_lengths},
    {"read: of all M from 0 to 32768 exactly the eleven powers of two are taken", every_memory_length},
    {"read: a text of 262145 bytes is refused with 9 at 0, whatever it says", texts_that_are_too_long},
    {"read: a line that is not of record form is refused with 10 and its line", lines_that_are_no_records},
    {"read: a blank line before the end record is refused with 10", blank_lines_are_refused},
    {"read: a CR without LF ends no line, at the text's end neither", lone_returns_are_refused},
    {"read: a byte that is no digit is refused with 10 in every place of a record", no_digit_in_any_place},
    {"read: every byte put into or inserted in every place of a text is answered as by the second simulator", every_byte_in_every_place},
    {"read: a sum that is not 0 modulo 256 is refused with 11 and its line", sums_that_are_wrong},
    {"read: every type from 02 to FF is refused with 12 and its line, srec_cat's first line too", every_other_type},
    {"read: a count, an address or an extent that is wrong is refused with 13 and its line", extents_that_are_wrong},
    {"read: every count that is no multiple of 4 is refused with 13", every_wrong_count},
    {"read: of all addresses exactly the multiples of 4 are taken with which a record ends within memory", every_address},
    {"read: in each legal memory one word too far is refused with 13", one_word_too_far},
    {"read: 14 names the lines read where no end record came, and else the line after it", ends_that_are_wrong},
    {"read: a record that starts before the end of the last is refused with 15 and its line", records_out_of_order},
    {"read: of two faults in one line the one that is tested first is answered", lines_wrong_in_two_ways},
    {"read: of two wrong lines the first one is answered", the_first_wrong_line},
    {"read: a line far down in a long text is counted right", far_down},
    {NULL, NULL},
};
