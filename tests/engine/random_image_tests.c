/* Random texts: avm_read compared with the second simulator; and random memories, written and read back. */
#include <string.h>

#include "../simulator/images.h"
#include "comparing.h"
#include "hand.h"
#include "images.h"
#include "texts.h"

static struct lent_image drawn_image;

static void draw_text(struct dice *dice, struct inputs *inputs)
{
    (void)inputs;
    draw_image(dice, &drawn_image);
}

/* What must come often: the texts in which a reader that is nearly right differs from a right one. */
enum occasion {
    LOWER_CASE, RETURNS, NO_LAST_END, NOT_ALL_NAMED, OF_NO_DATA, TO_THE_END_OF_MEMORY,
    REFUSED_AFTER_DATA, EMPTY_TEXT, NO_END_RECORD, AFTER_END_RECORD, BEFORE_ONE_OF_NO_DATA,
    OCCASIONS
};

static const char *const occasion_names[OCCASIONS] = {
    "accepted with a digit in lower case",
    "accepted with CR LF",
    "accepted with a last line without an end",
    "accepted without a record for every word",
    "accepted with a record of no data",
    "accepted with a record up to the end of memory",
    "refused after a line with data for memory",
    "empty",
    "refused with 14 where no end record came",
    "refused with 14 where something followed the end record",
    "refused with 15 after a record of no data",
};

static uint64_t occasions[OCCASIONS];

/* Answers by where they were given: at 0, on the first line, on a later one. */
enum place { AT_NO_LINE, AT_FIRST, AT_LATER, PLACES };
static uint64_t answered[AVM_WALK_NOT_BACK + 1][PLACES];

static void note(enum occasion occasion, bool came)
{
    occasions[occasion] += came;
}

static bool text_has(const char *bytes)
{
    size_t place;

    for (place = 0; place < drawn_image.bytes; place++)
        if (drawn_image.text[place] != 0 && strchr(bytes, drawn_image.text[place]) != NULL)
            return true;
    return false;
}

/* The last line is the end record. */
static void note_accepted(const struct image *list)
{
    size_t line, named = 0;
    bool of_no_data = false, to_the_end = false;

    for (line = 0; line + 1 < list->lines; line++) {
        const struct record *record = &list->line[line];

        named += record->count / 4;
        of_no_data |= record->count == 0;
        to_the_end |= record->count > 0 && record->address + record->count == drawn_image.m * 4;
    }
    note(LOWER_CASE, text_has("abcdef"));
    note(RETURNS, text_has("\r"));
    note(NO_LAST_END, drawn_image.text[drawn_image.bytes - 1] != '\n');
    note(NOT_ALL_NAMED, named < drawn_image.m);
    note(OF_NO_DATA, of_no_data);
    note(TO_THE_END_OF_MEMORY, to_the_end);
}

static void note_refused(const struct image *list, avm_answer answer)
{
    bool data_before = false, after_end = answer.at > 1 && list->line[answer.at - 2].type == 1;
    size_t line;

    for (line = 0; line + 1 < answer.at; line++)
        data_before |= list->line[line].count > 0;
    note(REFUSED_AFTER_DATA, data_before);
    note(EMPTY_TEXT, drawn_image.bytes == 0);
    note(NO_END_RECORD, answer.number == AVM_BAD_END && answer.at > 0 && !after_end);
    note(AFTER_END_RECORD, answer.number == AVM_BAD_END && after_end);
    note(BEFORE_ONE_OF_NO_DATA, answer.number == AVM_BAD_ORDER && list->line[answer.at - 2].count == 0);
}

static void look_into(avm_answer answer)
{
    static struct image list;

    answered[answer.number][answer.at < AT_LATER ? answer.at : AT_LATER]++;
    if (answer.number == AVM_BAD_MEMORY_LENGTH || answer.number == AVM_TEXT_TOO_LONG)
        return;
    take_records(&list, drawn_image.text, drawn_image.bytes);
    if (answer.number == AVM_DONE)
        note_accepted(&list);
    else
        note_refused(&list, answer);
}

static uint64_t text_case(struct dice *dice, enum side side)
{
    (void)dice;
    look_into(compare_read(&drawn_image, side));
    return 1;
}

static void expect_often(size_t number, enum place place, uint64_t least)
{
    static const char *const places[PLACES] = {"at 0", "at the first line", "at a later line"};

    expect(answered[number][place] >= least, "only %llu texts were answered with %zu %s", (unsigned long long)answered[number][place],
           number, places[place]);
}

static void random_texts(void)
{
    uint64_t texts;
    size_t number, k;

    memset(answered, 0, sizeof answered);
    memset(occasions, 0, sizeof occasions);
    texts = compare_drawn(1988, 60000, draw_text, text_case);
    if (!holds_so_far())
        return;
    expect_often(AVM_DONE, AT_NO_LINE, texts / 20);
    expect_often(AVM_BAD_MEMORY_LENGTH, AT_NO_LINE, texts / 300);
    expect_often(AVM_BAD_END, AT_NO_LINE, texts / 300);
    for (number = AVM_NOT_A_RECORD; number <= AVM_BAD_ORDER; number++) {
        if (number != AVM_BAD_ORDER)
            expect_often(number, AT_FIRST, texts / 300);
        expect_often(number, AT_LATER, texts / 50);
    }
    for (k = 0; k < OCCASIONS; k++)
        expect(occasions[k] >= texts / 200, "only %llu texts were %s", (unsigned long long)occasions[k], occasion_names[k]);
    expect_compared(texts, 50000, "texts");
}

/* A text of a length near the limit, of records of no data, with one byte changed in every second one. */
static void draw_long_text(struct dice *dice, struct inputs *inputs)
{
    enum { RECORDS = 21820 }; /* some less than fit */
    static struct lent_image start;
    size_t record, bytes = AVM_TEXT_MOST - 4 + dice_below(dice, 9);

    (void)inputs;
    if (start.bytes == 0)
        for (record = 0; record < RECORDS; record++)
            add(&start, ":00000400FC\n");
    draw_memory(dice, &drawn_image, 16);
    drawn_image.bytes = 0;
    add_bytes(&drawn_image, start.text, start.bytes);
    fill_with_empty_records(&drawn_image, 4, bytes);
    if (dice_chance(dice, 50))
        drawn_image.text[dice_below(dice, bytes)] = (uint8_t)"0123456789ABCDEFabcdef:\r\n "[dice_below(dice, 26)];
}

static void random_long_texts(void)
{
    uint64_t texts = compare_drawn(9, 200, draw_long_text, text_case);

    expect_seen(AVM_DONE, AVM_DONE);
    expect(times_seen(AVM_TEXT_TOO_LONG) >= texts / 4 || !holds_so_far(), "only %llu texts were too long",
           (unsigned long long)times_seen(AVM_TEXT_TOO_LONG));
    remark(" (%llu texts)", (unsigned long long)texts);
}

/* A memory of any legal length, and room that is just enough, too little or more. */
static void draw_room(struct dice *dice, struct inputs *inputs)
{
    size_t m = draw_any_length(dice), needed = 11 * m + 12, place;

    (void)inputs;
    draw_memory(dice, &drawn_image, m);
    switch (dice_below(dice, 4)) {
    case 0: drawn_image.bytes = needed - 1 - dice_below(dice, 20); break;
    case 1: drawn_image.bytes = dice_below(dice, needed); break;
    case 2: drawn_image.bytes = needed; break;
    default: drawn_image.bytes = needed + dice_below(dice, 300); break;
    }
    for (place = 0; place < drawn_image.bytes; place++)
        drawn_image.text[place] = (uint8_t)dice_next(dice);
}

static uint64_t written_case(struct dice *dice, enum side side)
{
    (void)dice;
    compare_write(&drawn_image, side);
    return 1;
}

static void random_memories(void)
{
    uint64_t memories = compare_drawn(16, 400, draw_room, written_case);

    expect(times_seen(AVM_DONE) >= memories / 4 || !holds_so_far(), "few memories were written");
    expect(times_seen(AVM_NO_ROOM) >= memories / 4 || !holds_so_far(), "few memories had too little room");
    remark(" (%llu memories)", (unsigned long long)memories);
}

/* A memory, and enough room. */
static void draw_to_write(struct dice *dice, struct inputs *inputs)
{
    (void)inputs;
    draw_memory(dice, &drawn_image, draw_any_length(dice));
    drawn_image.bytes = AVM_WRITTEN(drawn_image.m);
}

/* What the engine writes of one memory, it reads into another one. */
static uint64_t round_trip_case(struct dice *dice, enum side side)
{
    static uint32_t memory_after[MEMORY_ROOM];
    struct image_places lent;

    memcpy(memory_after, drawn_image.memory, drawn_image.m * sizeof memory_after[0]);
    lent = lend_to_write(&drawn_image, side);
    compare_answers(call_write(&engine, &lent), taken(drawn_image.bytes));
    memcpy(drawn_image.text, lent.text, drawn_image.bytes);
    draw_memory(dice, &drawn_image, drawn_image.m);
    lent = lend_to_read(&drawn_image, side);
    compare_answers(call_read(&engine, &lent), taken(0));
    expect_same_words("engine", "memory", lent.memory, memory_after, lent.m);
    return 1;
}

static void random_round_trips(void)
{
    remark(" (%llu memories)", (unsigned long long)compare_drawn(2026, 1000, draw_to_write, round_trip_case));
}

const struct test random_image_tests[] = {
    {"random texts are read as the second simulator reads them, and nothing is touched that is not lent", random_texts},
    {"random texts about as long as may be are refused with 9 exactly above 262144 bytes", random_long_texts},
    {"random memories are written as the second simulator writes them, into any room", random_memories},
    {"random memories of every legal length are read back as they were written, over other ones", random_round_trips},
    {NULL, NULL},
};
