/* Texts drawn at random, so that avm_read has every answer for many of them and for many reasons. */
#ifndef ENGINE_TEXTS_H
#define ENGINE_TEXTS_H

#include "images.h"

/* A memory, now and then of no legal length, and a text: an image as it is written, whole or damaged; records in order or not; noise. */
void draw_image(struct dice *dice, struct lent_image *image);

/* Words for a memory of that length. */
void draw_memory(struct dice *dice, struct lent_image *image, size_t m);

/* One of the eleven legal lengths, each as often as the others. */
size_t draw_any_length(struct dice *dice);

#endif
