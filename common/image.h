/* Images: Intel HEX, as avm_read takes it. */
#ifndef COMMON_IMAGE_H
#define COMMON_IMAGE_H

#include "text.h"

/* Stores an image in a memory of m words. */
bool read_image(const struct text *text, uint32_t *memory, size_t m, struct complaint *complaint);

#endif
