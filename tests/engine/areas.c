#define _DEFAULT_SOURCE

#include "areas.h"

#include <stdio.h>
#include <stdlib.h>
#include <string.h>
#include <sys/mman.h>
#include <unistd.h>

#include "check.h"

static const unsigned char pattern = 0xA5;

static void protect(void *pages, size_t length, int protection)
{
    if (length > 0 && mprotect(pages, length, protection) != 0) {
        perror("mprotect");
        exit(2);
    }
}

static size_t whole_pages(size_t length)
{
    size_t page = (size_t)sysconf(_SC_PAGESIZE);

    return (length + page - 1) / page * page;
}

static void map(struct area *area)
{
    size_t guard = whole_pages(1);
    unsigned char *all;

    area->room = whole_pages(area->room);
    all = mmap(NULL, area->room + 2 * guard, PROT_NONE, MAP_PRIVATE | MAP_ANONYMOUS, -1, 0);
    if (all == MAP_FAILED) {
        perror("mmap");
        exit(2);
    }
    area->pages = area->used = all + guard;
}

void *lend_area(struct area *area, const void *bytes, size_t length, enum side side)
{
    size_t size = whole_pages(length);

    if (area->pages == NULL)
        map(area);
    protect(area->used, whole_pages(area->length), PROT_NONE);
    area->used = side == AT_START ? area->pages : area->pages + area->room - size;
    area->place = side == AT_START ? area->used : area->used + size - length;
    area->length = length;
    protect(area->used, size, PROT_READ | PROT_WRITE);
    memset(area->used, pattern, size);
    memcpy(area->place, bytes, length);
    if (area->only_read)
        protect(area->used, size, PROT_READ);
    return length == 0 && side == AT_START ? NULL : area->place;
}

/* All bytes are the pattern: the first is, and each equals the one before it. */
static bool untouched(const unsigned char *from, size_t length)
{
    return length == 0 || (from[0] == pattern && memcmp(from, from + 1, length - 1) == 0);
}

void expect_nothing_around(const char *who, const struct area *area)
{
    size_t before = (size_t)(area->place - area->used), after = whole_pages(area->length) - area->length - before;

    expect(untouched(area->used, before), "%s wrote below the lent %s", who, area->name);
    expect(untouched(area->place + area->length, after), "%s wrote above the lent %s", who, area->name);
}
