/* The fields of a microword in words, as a frame shows them. */
#ifndef DISPLAY_FIELDS_H
#define DISPLAY_FIELDS_H

#include <stddef.h>
#include <stdint.h>

enum { FIELDS_ROOM = 81 };

/* Three lines. The first has how the microword goes on and its signals, the second its operation, the third the bits that are left. A bit
   is named where it is set. */
enum { FIELD_LINES = 3 };
const char *tell_fields(uint64_t microword, size_t line, char room[FIELDS_ROOM]);

#endif
