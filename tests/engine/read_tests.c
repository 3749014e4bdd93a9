/* Texts that avm_read takes, and what memory holds after them. Expected words are worked out by hand from the scope's rules. */
#include <string.h>

#include "hand.h"
#include "images.h"

static struct lent_image image;
static uint32_t after[MEMORY_ROOM];

static const size_t legal[] = {16, 32, 64, 128, 256, 512, 1024, 2048, 4096, 8192, 16384};

/* That many words, and the memory after the call like it until the test says more. */
static void prepare(size_t m)
{
    start_image(&image, m);
    memcpy(after, image.memory, m * sizeof after[0]);
}

static void take(void)
{
    check_read(&image, after, taken(0));
}

/* The word at a byte address of a record whose bytes go up from the first. */
static uint32_t rising(uint8_t first, unsigned place)
{
    uint32_t word = 0;
    unsigned k;

    for (k = 0; k < 4; k++)
        word = word << 8 | ((first + place + k) & 0xFF);
    return word;
}

static void expect_rising(unsigned count, unsigned address, uint8_t first)
{
    unsigned place;

    for (place = 0; place < count; place += 4)
        after[(address + place) / 4] = rising(first, place);
}

static void the_scopes_example(void)
{
    prepare(16);
    add(&image, ":0400000000000010EC\n:00000001FF\n");
    after[0] = 0x10;
    take();
}

/* Two words in one record, and one word in another. */
static void most_significant_first(void)
{
    prepare(16);
    add(&image, ":08000400DEADBEEFCAFEBABE7C\n:04003C00800000013F\n:00000001FF\n");
    after[1] = 0xDEADBEEF;
    after[2] = 0xCAFEBABE;
    after[15] = 0x80000001;
    take();
}

static const char *const cases_and_ends[] = {
    ":08000400DEADBEEFCAFEBABE7C\n:00000001FF\n",       ":08000400deadbeefcafebabe7c\n:00000001ff\n",
    ":08000400DeAdBeEfcAfEbAbE7C\n:00000001fF\n",       ":08000400DEADBEEFCAFEBABE7c\r\n:00000001Ff\r\n",
    ":08000400DEADBEEFCAFEBABE7C\n:00000001FF",         ":08000400DEADBEEFCAFEBABE7C\r\n:00000001FF",
    ":08000400deadbeefcafebabe7c\r\n:00000001FF\n",     ":08000400DEADBEEFCAFEBABE7C\n:00000001FF\r\n",
    ":04000400DEADBEEFC0\r\n:04000800cafebabeb4\n:00000001ff",
};

static void either_case_and_either_end(void)
{
    size_t k;

    for (k = 0; k < COUNT(cases_and_ends); k++) {
        stand_at_row(k);
        prepare(16);
        add(&image, cases_and_ends[k]);
        after[1] = 0xDEADBEEF;
        after[2] = 0xCAFEBABE;
        take();
    }
}

static void an_end_record_alone(void)
{
    static const char *const texts[] = {":00000001FF", ":00000001FF\n", ":00000001ff\r\n"};
    size_t k;

    for (k = 0; k < COUNT(texts); k++) {
        stand_at_row(k);
        prepare(16);
        add(&image, texts[k]);
        take();
    }
}

/* 252 is the highest count that is a multiple of 4. */
static void every_count(void)
{
    unsigned count;

    for (count = 0; count <= 252; count += 4) {
        stand_at_row(count);
        prepare(64);
        add_record(&image, count, 256 - count, 0, (uint8_t)count);
        add(&image, "\n");
        add_end(&image);
        expect_rising(count, 256 - count, (uint8_t)count);
        take();
    }
}

/* A record that ends with memory, in each legal memory. At M = 16384 its end is 10000 in hex, which no address can say. */
static void up_to_the_end_of_memory(void)
{
    size_t k;

    for (k = 0; k < COUNT(legal); k++) {
        unsigned address = (unsigned)legal[k] * 4 - 32;

        stand_at_row(k);
        prepare(legal[k]);
        add_record(&image, 8, address, 0, 0xF0);
        add(&image, "\n");
        add_record(&image, 24, address + 8, 0, 0x80);
        add(&image, "\n");
        add_end(&image);
        expect_rising(8, address, 0xF0);
        expect_rising(24, address + 8, 0x80);
        take();
    }
}

/* Records of no data between others and where memory ends; one may follow another in the same place. */
static void records_of_no_data(void)
{
    prepare(16);
    add(&image, ":0000000000\n:0400000000000010EC\n:00000400FC\n:00000400FC\n:0400080012345678E0\n:00004000C0\n:00004000C0\n");
    add_end(&image);
    after[0] = 0x10;
    after[2] = 0x12345678;
    take();
}

/* 4M of the largest memory is above every address: its last word is the highest place. */
static void no_data_at_the_end_of_memory(void)
{
    size_t k;

    for (k = 0; k < COUNT(legal); k++) {
        size_t end = legal[k] * 4;

        stand_at_row(k);
        prepare(legal[k]);
        add_record(&image, 0, (unsigned)(end < 65536 ? end : 65532), 0, 0);
        add(&image, "\n");
        add_end(&image);
        take();
    }
}

/* Its address, 0, is before the end of the last data record: that is not tested. */
static void end_record_after_the_last_word(void)
{
    prepare(16);
    add_record(&image, 64, 0, 0, 1);
    add(&image, "\n");
    add_end(&image);
    expect_rising(64, 0, 1);
    take();
}

/* A record for every second word. */
static void words_not_named(void)
{
    unsigned word;

    prepare(1024);
    for (word = 1; word < 1024; word += 2) {
        add_record(&image, 4, word * 4, 0, (uint8_t)word);
        add(&image, "\n");
        expect_rising(4, word * 4, (uint8_t)word);
    }
    add_end(&image);
    take();
}

static void longest_text(void)
{
    prepare(16384);
    add_record(&image, 252, 0, 0, 7);
    add(&image, "\n");
    expect_rising(252, 0, 7);
    fill_with_empty_records(&image, 252, AVM_TEXT_MOST);
    expect(image.bytes == 262144, "the text has %zu bytes", image.bytes);
    take();
}

const struct test read_tests[] = {
    {"read: the scope's record and an end record put 10 into word 0 and leave the others", the_scopes_example},
    {"read: word w is bytes 4w to 4w + 3, the most significant first", most_significant_first},
    {"read: digits of either case, LF and CR LF, and a last line without an end mean the same", either_case_and_either_end},
    {"read: an end record alone is an image that names no word", an_end_record_alone},
    {"read: every count that is a multiple of 4 is taken, 252 the highest", every_count},
    {"read: in each legal memory a record may end where memory ends", up_to_the_end_of_memory},
    {"read: records of no data store nothing", records_of_no_data},
    {"read: a record of no data may stand at 4M itself", no_data_at_the_end_of_memory},
    {"read: the end record may follow a record that names the last word", end_record_after_the_last_word},
    {"read: words that no record names keep their value", words_not_named},
    {"read: a text of 262144 bytes is taken", longest_text},
    {NULL, NULL},
};
