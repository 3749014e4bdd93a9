/* processes COMMAND.. -- COMMAND..: runs the two commands in turn, many times, and prints how long a run of each takes from its start to
   its end, and the first one's time divided by the second's; see bench/README.md. */
#define _POSIX_C_SOURCE 200809L

#include <spawn.h>
#include <stdio.h>
#include <string.h>
#include <sys/wait.h>

#include "timing.h"

enum { RUNS = 201 };

extern char **environ;

static double seconds(char **command)
{
    double start = wall_seconds();
    int status;
    pid_t child;

    if (posix_spawnp(&child, command[0], NULL, NULL, command, environ) != 0)
        fail(command[0], "can't be started");
    if (waitpid(child, &status, 0) != child || !WIFEXITED(status) || WEXITSTATUS(status) != 0)
        fail(command[0], "a run failed");
    return wall_seconds() - start;
}

/* In turn, so that what disturbs the machine for a while disturbs both. The first run of each brings its files into memory and does not
   count. */
static void measure(char **first, char **second)
{
    double ours[RUNS], theirs[RUNS], ratio[RUNS], middle;
    int k;

    seconds(first);
    seconds(second);
    for (k = 0; k < RUNS; k++) {
        ours[k] = seconds(first);
        theirs[k] = seconds(second);
        ratio[k] = ours[k] / theirs[k];
    }
    middle = median(ratio, RUNS);
    printf("%.2f ms and %.2f ms a run, ratio %.2f  (half of the ratios from %.2f to %.2f)\n", 1e3 * median(ours, RUNS),
           1e3 * median(theirs, RUNS), middle, ratio[RUNS / 4], ratio[RUNS - 1 - RUNS / 4]);
}

int main(int count, char **words)
{
    int between = 1;

    while (between < count && strcmp(words[between], "--") != 0)
        between++;
    if (between == 1 || between >= count - 1)
        fail(words[0], "wants COMMAND.. -- COMMAND..");
    words[between] = NULL;
    measure(words + 1, words + between + 1);
    return 0;
}
