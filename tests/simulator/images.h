/* The scope's images: Intel HEX text as a list of records. Each is taken off the text by the count that it begins with, so no line is
   looked for; all are judged before a word is stored; and memory is a row of bytes. */
#ifndef SIMULATOR_IMAGES_H
#define SIMULATOR_IMAGES_H

#include <stdbool.h>
#include <stddef.h>
#include <stdint.h>

enum { TEXT_BYTES = 262144 }; /* no text is longer, so none has more lines */

/* One line. Only where it is formed the rest means something. */
struct record {
    bool formed;
    unsigned count, address, type;
    unsigned sum;       /* of all bytes, modulo 256 */
    const char *digits; /* of the first byte of data */
};

struct image {
    size_t lines;
    struct record line[TEXT_BYTES];
};

/* Takes the records off a text of at most TEXT_BYTES bytes, up to the first line that is not of record form: nothing behind that one can
   matter. The list points into the text. */
void take_records(struct image *image, const uint8_t *text, size_t bytes);

/* A number of the scope, 0 where there is none, and the line that goes with it. */
struct judgement {
    unsigned number;
    size_t line;
};

/* Tests the lines in their order, as an image for that many words. */
struct judgement judge_image(const struct image *image, size_t words);

/* Stores the data of a list without fault. */
void store_image(const struct image *image, uint32_t *memory);

/* Bytes of the text that is written of that many words, and that text. */
size_t written_length(size_t words);
void write_text(const uint32_t *memory, size_t words, char *text);

#endif
