#include "tally.h"

#include <stdio.h>

struct tally start_tally(uint64_t expected)
{
    struct tally tally = {expected, 0, 0, 0};

    return tally;
}

void count_mark(struct tally *tally, bool right)
{
    tally->marked++;
    if (right)
        return;
    if (tally->wrong == 0)
        tally->first_wrong = tally->marked;
    tally->wrong++;
}

const char *plural(uint64_t number)
{
    return number == 1 ? "" : "s";
}

/* What both kinds of verdict begin with: all of a right one. */
static size_t tell_counts(const struct tally *tally, const char *name, char room[VERDICT_ROOM])
{
    const unsigned long long wrong = tally->wrong, expected = tally->expected;

    if (wrong > 0)
        return (size_t)snprintf(room, VERDICT_ROOM, "wrong: %llu of %llu %s%s ", wrong, expected, name, plural(expected));
    return (size_t)snprintf(room, VERDICT_ROOM, "right: %s%llu %s%s %s as expected", expected == 1 ? "" : "all ", expected, name,
                            plural(expected), expected == 1 ? "is" : "are");
}

const char *tell_verdict(const struct tally *tally, const char *name, char room[VERDICT_ROOM])
{
    size_t length = tell_counts(tally, name, room);

    if (tally->wrong > 0)
        snprintf(room + length, VERDICT_ROOM - length, "%s not as expected; %s %s %llu", tally->wrong == 1 ? "is" : "are",
                 tally->wrong == 1 ? "it is" : "the first is", name, (unsigned long long)tally->first_wrong);
    return room;
}

const char *tell_narrow_verdict(const struct tally *tally, const char *name, char room[VERDICT_ROOM])
{
    size_t length = tell_counts(tally, name, room);

    if (tally->wrong > 0)
        snprintf(room + length, VERDICT_ROOM - length, tally->wrong == 1 ? "differs" : "differ");
    return room;
}
