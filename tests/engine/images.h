/* What avm_read and avm_write are lent, texts made by hand, and what must come of them. */
#ifndef ENGINE_IMAGES_H
#define ENGINE_IMAGES_H

#include "check.h"
#include "places.h"

/* Room for texts that are too long, too. */
enum { TEXT_ROOM = AVM_TEXT_MOST + 64 };

struct lent_image {
    uint32_t memory[MEMORY_ROOM];
    uint8_t text[TEXT_ROOM]; /* to read; or what the room for a written text holds before */
    size_t m, bytes;
};

/* That many words of memory, each with something of its own, and a text of no bytes. */
void start_image(struct lent_image *image, size_t m);

/* Adds to the text. A record's bytes of data go up from the first, and its sum is right. A line's end is not part of it. */
void add_bytes(struct lent_image *image, const void *bytes, size_t length);
void add(struct lent_image *image, const char *string);
void add_record(struct lent_image *image, unsigned count, unsigned address, unsigned type, uint8_t first);

/* Adds the record of the scope's example, with its LF, and its end record, with its own. */
void add_example(struct lent_image *image);
void add_end(struct lent_image *image);

/* Fills up with records of no data at that address and an end record without LF, to exactly that many bytes. */
void fill_with_empty_records(struct lent_image *image, unsigned address, size_t bytes);

/* Copies of memory and text, lent from areas of their own. Where the text is to be read, memory can be written and the text can't; where
   it is room to write to, that is the other way round. */
struct image_places {
    uint32_t *memory;
    uint8_t *text;
    size_t m, bytes;
};

struct image_places lend_to_read(const struct lent_image *image, enum side side);
struct image_places lend_to_write(const struct lent_image *image, enum side side);

avm_answer call_read(const struct implementation *implementation, const struct image_places *places);
avm_answer call_write(const struct implementation *implementation, const struct image_places *places);

/* Expects that the patterns around what was lent last to read, or to write, are whole. */
void expect_nothing_beyond_read(const char *who);
void expect_nothing_beyond_written(const char *who);

/* Expects the same bytes as text. */
void expect_same_text(const char *who, const uint8_t *got, const uint8_t *want, size_t length);

/* Expect the answer and the final content of memory, or of the room, of the engine and of the second simulator, on both sides of a guard
   page. What a refused call must leave is what it was lent. */
void check_read(const struct lent_image *image, const uint32_t *memory_after, avm_answer want);
void check_read_refused(const struct lent_image *image, uint64_t number, uint64_t at);
void check_write(const struct lent_image *image, const uint8_t *room_after, avm_answer want);

#endif
