#include "images.h"

#include <string.h>

#include "hand.h"

void start_image(struct lent_image *image, size_t m)
{
    size_t word;

    for (word = 0; word < m; word++)
        image->memory[word] = 0xA5C30000u + (uint32_t)word;
    image->m = m;
    image->bytes = 0;
}

void add_bytes(struct lent_image *image, const void *bytes, size_t length)
{
    expect(length <= TEXT_ROOM - image->bytes, "a text of a test is longer than there is room for");
    if (!holds_so_far())
        return;
    memcpy(image->text + image->bytes, bytes, length);
    image->bytes += length;
}

void add(struct lent_image *image, const char *string)
{
    add_bytes(image, string, strlen(string));
}

static void add_byte(struct lent_image *image, unsigned byte, unsigned *sum)
{
    static const char digits[] = "0123456789ABCDEF";
    const char pair[2] = {digits[byte >> 4 & 15], digits[byte & 15]};

    add_bytes(image, pair, 2);
    *sum += byte;
}

void add_record(struct lent_image *image, unsigned count, unsigned address, unsigned type, uint8_t first)
{
    unsigned sum = 0, place;

    add(image, ":");
    add_byte(image, count, &sum);
    add_byte(image, address / 256, &sum);
    add_byte(image, address % 256, &sum);
    add_byte(image, type, &sum);
    for (place = 0; place < count; place++)
        add_byte(image, (first + place) % 256, &sum);
    add_byte(image, 0u - sum, &sum);
}

void add_example(struct lent_image *image)
{
    add(image, ":0400000000000010EC\n");
}

void add_end(struct lent_image *image)
{
    add(image, ":00000001FF\n");
}

/* A record of no data has 12 bytes with LF and 13 with CR LF, and both together give every large length. */
void fill_with_empty_records(struct lent_image *image, unsigned address, size_t bytes)
{
    const char *const end = ":00000001FF";
    size_t before_end = bytes - strlen(end), longer = (before_end - image->bytes) % 12;

    while (image->bytes < before_end) {
        add_record(image, 0, address, 0, 0);
        add(image, longer > 0 ? "\r\n" : "\n");
        longer -= longer > 0;
    }
    add(image, end);
}

enum { READ_MEMORY, READ_TEXT, WRITTEN_MEMORY, WRITTEN_ROOM, AREAS };

static struct area areas[AREAS] = {
    AREA("memory", MEMORY_ROOM * sizeof(uint32_t), false),
    AREA("text", TEXT_ROOM, true),
    AREA("memory", MEMORY_ROOM * sizeof(uint32_t), true),
    AREA("room", TEXT_ROOM, false),
};

static struct image_places lend_image(const struct lent_image *image, int memory, int text, enum side side)
{
    struct image_places places = {.m = image->m, .bytes = image->bytes};

    places.memory = lend_area(&areas[memory], image->memory, image->m * sizeof image->memory[0], side);
    places.text = lend_area(&areas[text], image->text, image->bytes, side);
    return places;
}

struct image_places lend_to_read(const struct lent_image *image, enum side side)
{
    return lend_image(image, READ_MEMORY, READ_TEXT, side);
}

struct image_places lend_to_write(const struct lent_image *image, enum side side)
{
    return lend_image(image, WRITTEN_MEMORY, WRITTEN_ROOM, side);
}

avm_answer call_read(const struct implementation *implementation, const struct image_places *p)
{
    return implementation->read(p->memory, p->m, p->text, p->bytes);
}

avm_answer call_write(const struct implementation *implementation, const struct image_places *p)
{
    return implementation->write(p->memory, p->m, p->text, p->bytes);
}

void expect_nothing_beyond_read(const char *who)
{
    expect_nothing_around(who, &areas[READ_MEMORY]);
}

void expect_nothing_beyond_written(const char *who)
{
    expect_nothing_around(who, &areas[WRITTEN_ROOM]);
}

void expect_same_text(const char *who, const uint8_t *got, const uint8_t *want, size_t length)
{
    size_t place;

    if (length == 0 || memcmp(got, want, length) == 0)
        return;
    for (place = 0; got[place] == want[place]; place++)
        continue;
    expect(false, "%s leaves byte %zu of the text as %02X, not %02X", who, place, got[place], want[place]);
}

static const struct implementation *const both[] = {&engine, &simulator};

void check_read(const struct lent_image *image, const uint32_t *memory_after, avm_answer want)
{
    int who, side;

    for (who = 0; who < 2; who++)
        for (side = 0; side < SIDES; side++) {
            struct image_places places = lend_to_read(image, side);

            expect_same_answer(both[who]->name, call_read(both[who], &places), want);
            expect_same_words(both[who]->name, "memory", places.memory, memory_after, image->m);
            expect_nothing_beyond_read(both[who]->name);
        }
}

void check_read_refused(const struct lent_image *image, uint64_t number, uint64_t at)
{
    check_read(image, image->memory, refused(number, at));
}

void check_write(const struct lent_image *image, const uint8_t *room_after, avm_answer want)
{
    int who, side;

    for (who = 0; who < 2; who++)
        for (side = 0; side < SIDES; side++) {
            struct image_places places = lend_to_write(image, side);

            expect_same_answer(both[who]->name, call_write(both[who], &places), want);
            expect_same_text(both[who]->name, places.text, room_after, image->bytes);
            expect_nothing_beyond_written(both[who]->name);
        }
}
