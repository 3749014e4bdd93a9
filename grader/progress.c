#define _POSIX_C_SOURCE 200809L

#include "progress.h"

#include <stdio.h>
#include <unistd.h>

#include "../common/seconds.h"

struct progress start_progress(avm_microcycles until)
{
    struct progress progress = {false, false, 0, {0}};

    progress.wanted = isatty(STDERR_FILENO) == 1;
    progress.next = seconds_now() + 0.5;
    progress.until = until;
    return progress;
}

void show_progress(struct progress *progress, avm_microcycles done)
{
    /* A microcycle takes less than a microsecond, so the clock is not looked at in each. */
    if (!progress->wanted || done.count % 1024 != 0 || seconds_now() < progress->next)
        return;
    fprintf(stderr, "\rmicrocycle %llu of %llu, %u %%", (unsigned long long)done.count, (unsigned long long)progress->until.count,
            (unsigned)(done.count * 100 / progress->until.count));
    progress->shown = true;
    progress->next = seconds_now() + 0.2;
}

void hide_progress(struct progress *progress)
{
    if (progress->shown)
        fprintf(stderr, "\r%50s\r", "");
    progress->shown = false;
}
