/* Pages between guard pages: a copy that is lent from them can't be left in either direction without being seen. */
#ifndef ENGINE_AREAS_H
#define ENGINE_AREAS_H

#include <stdbool.h>
#include <stddef.h>

struct area {
    const char *name;
    size_t room; /* bytes that can be lent at most */
    bool only_read;
    unsigned char *pages, *used; /* all of them, and those of the last lend */
    unsigned char *place;        /* what was lent */
    size_t length;
};

#define AREA(name, room, only_read) {name, room, only_read, NULL, NULL, NULL, 0}

/* Where in its pages a copy lies: its last byte just before a page that can't be touched, or its first byte just after one. */
enum side { AT_END, AT_START, SIDES };

/* A copy of the bytes in as few pages as hold it; none but these can be touched, and what is left of them holds a pattern. A place of no
   length is NULL on one side and points at a guard page on the other. Lending again takes the earlier place away. */
void *lend_area(struct area *area, const void *bytes, size_t length, enum side side);

/* Expects that the pattern around what was lent last is whole. */
void expect_nothing_around(const char *who, const struct area *area);

#endif
