/* What avm_write writes and what it leaves, and that avm_read gives it back. */
#include <string.h>

#include "hand.h"
#include "images.h"

static struct lent_image image;
static uint8_t room_after[TEXT_ROOM];

static const size_t legal[] = {16, 32, 64, 128, 256, 512, 1024, 2048, 4096, 8192, 16384};

/* Room of that many bytes, none of which is one that could be written. */
static void make_room(size_t bytes)
{
    size_t place;

    for (place = 0; place < bytes; place++)
        image.text[place] = room_after[place] = (uint8_t)(0x80 + place % 101);
    image.bytes = bytes;
}

/* The text, and then what was in the room before. */
static void check_written(const char *text)
{
    memcpy(room_after, text, strlen(text));
    check_write(&image, room_after, taken(strlen(text)));
}

static void refuse_to_write(uint64_t number, uint64_t at)
{
    check_write(&image, image.text, refused(number, at));
}

/* What the scope prints for 16 words of which only the first is not 0. */
static void the_scopes_example(void)
{
    start_image(&image, 16);
    memset(image.memory, 0, 16 * sizeof image.memory[0]);
    image.memory[0] = 0x10;
    make_room(188);
    check_written(":1000000000000010000000000000000000000000E0\n"
                  ":1000100000000000000000000000000000000000E0\n"
                  ":1000200000000000000000000000000000000000D0\n"
                  ":1000300000000000000000000000000000000000C0\n"
                  ":00000001FF\n");
}

/* Every digit, every byte of a word in its place, and a sum of 0. */
static void words_and_sums(void)
{
    static const uint32_t words[16] = {0x01234567, 0x89ABCDEF, 0xFEDCBA98, 0x76543210, 0xFFFFFFFF, 0xFFFFFFFF, 0xFFFFFFFF, 0xFFFFFFFF,
                                       0x000000D0, 0,          0,          0,          0x80000000, 0x00800000, 0x00008000, 0x00000080};

    start_image(&image, 16);
    memcpy(image.memory, words, sizeof words);
    make_room(188);
    check_written(":100000000123456789ABCDEFFEDCBA9876543210F8\n"
                  ":10001000FFFFFFFFFFFFFFFFFFFFFFFFFFFFFFFFF0\n"
                  ":10002000000000D000000000000000000000000000\n"
                  ":1000300080000000008000000000800000000080C0\n"
                  ":00000001FF\n");
}

/* The last record before the end, of the largest memory: its address is the highest that is written. */
static void the_last_record(void)
{
    static const char last[] = ":10FFF000A5C33FFCA5C33FFDA5C33FFEA5C33FFF6F\n:00000001FF\n";
    struct image_places places;

    start_image(&image, 16384);
    make_room(AVM_WRITTEN(16384));
    places = lend_to_write(&image, AT_END);
    expect_same_answer("engine", call_write(&engine, &places), taken(180236));
    expect_same_text("engine", places.text + 180236 - strlen(last), (const uint8_t *)last, strlen(last));
}

/* 16 with what is needed; all bytes that were there stay. With no room it is NULL on one side and can't be touched on the other. */
static void too_little_room(void)
{
    size_t k, less;

    for (k = 0; k < COUNT(legal); k++) {
        const size_t needed = 11 * legal[k] + 12, rooms[] = {0, 1, 12, 43, 44, needed / 2, needed - 12, needed - 1};

        stand_at_row(k);
        start_image(&image, legal[k]);
        for (less = 0; less < COUNT(rooms); less++) {
            make_room(rooms[less]);
            refuse_to_write(AVM_NO_ROOM, needed);
        }
    }
}

/* The engine's text is the second simulator's, in room that is just enough and in more, and what is beyond it stays. */
static void enough_room(void)
{
    static const size_t more[] = {0, 1, 2, 11, 44, 4096};
    size_t k, beyond;

    for (k = 0; k < COUNT(legal); k++)
        for (beyond = 0; beyond < COUNT(more); beyond++) {
            size_t needed = 11 * legal[k] + 12;

            stand_at_row(k);
            start_image(&image, legal[k]);
            make_room(needed + more[beyond]);
            simulator.write(image.memory, image.m, room_after, needed);
            check_write(&image, room_after, taken(needed));
        }
}

/* 1 is tested before 16. */
static void memory_lengths(void)
{
    static const size_t bad[] = {0, 1, 8, 15, 17, 24, 48, 16383, 16385, 24576, 32768}, rooms[] = {0, 11, 188, TEXT_ROOM};
    size_t k, room;

    for (k = 0; k < COUNT(bad); k++)
        for (room = 0; room < COUNT(rooms); room++) {
            stand_at_row(k);
            start_image(&image, bad[k]);
            make_room(rooms[room]);
            refuse_to_write(AVM_BAD_MEMORY_LENGTH, 0);
        }
}

/* Exactly the eleven legal lengths come as far as 16. */
static void every_memory_length(void)
{
    size_t m, legal_length = 16;

    start_image(&image, MEMORY_ROOM);
    for (m = 0; m <= MEMORY_ROOM; m++) {
        bool is_legal = m == legal_length && m <= 16384;

        stand_at_row(m);
        expect_same_answer("engine", engine.write(image.memory, m, NULL, 0),
                           is_legal ? refused(AVM_NO_ROOM, 11 * m + 12) : refused(AVM_BAD_MEMORY_LENGTH, 0));
        legal_length = is_legal ? legal_length * 2 : legal_length;
    }
}

/* Over a memory that holds the complement everywhere, so that a word that is left out shows. */
static void written_texts_read_back(void)
{
    static struct lent_image other;
    size_t k, word;

    for (k = 0; k < COUNT(legal); k++) {
        stand_at_row(k);
        start_image(&image, legal[k]);
        start_image(&other, legal[k]);
        for (word = 0; word < legal[k]; word++)
            other.memory[word] = ~image.memory[word];
        other.bytes = AVM_WRITTEN(legal[k]);
        expect_same_answer("engine", engine.write(image.memory, image.m, other.text, other.bytes), taken(other.bytes));
        check_read(&other, image.memory, taken(0));
    }
}

const struct test write_tests[] = {
    {"write: the scope's example is written byte for byte", the_scopes_example},
    {"write: words are written with the most significant byte first, in upper case, with their sum", words_and_sums},
    {"write: the largest memory ends with the record at FFF0 and the end record", the_last_record},
    {"write: M = 8, 24, 0, 15 and 32768 are refused with 1, whatever the room is", memory_lengths},
    {"write: of all M from 0 to 32768 exactly the eleven powers of two are taken", every_memory_length},
    {"write: with too little room 16 says the 11M + 12 bytes needed and leaves the room as lent", too_little_room},
    {"write: in each legal memory 11M + 12 bytes are written and room beyond them stays as lent", enough_room},
    {"write: in each legal memory what is written is read back, over any memory", written_texts_read_back},
    {NULL, NULL},
};
