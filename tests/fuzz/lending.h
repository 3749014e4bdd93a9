/* What a call is lent, made of the fuzzer's bytes: mostly something that no test at a call's start refuses, and damaged now and then. */
#ifndef FUZZ_LENDING_H
#define FUZZ_LENDING_H

#include "../engine/images.h"
#include "../engine/places.h"
#include "bytes.h"

/* A program whose words do anything, and one whose words only lead somewhere, two bytes each. */
void take_program(struct bytes *bytes, struct inputs *inputs);
void take_store(struct bytes *bytes, struct inputs *inputs);

/* Everything else; request bytes up to the highest. MPC is mostly inside the program, which is taken before. Memory is what is left of the
   bytes, again and again. */
void take_machine(struct bytes *bytes, struct inputs *inputs, uint8_t highest_request);

/* Texts to read: the bytes as they are, and records, whose sums are mostly right. */
typedef void one_text(struct bytes *bytes, struct lent_image *image);

one_text take_raw_text, take_record_text;

/* A memory and such a text, now and then so often that it is about as long as may be. */
void take_image(struct bytes *bytes, struct lent_image *image, one_text *take_text);

/* A memory to write, and room that is about enough. */
void take_room(struct bytes *bytes, struct lent_image *image);

#endif
