/* All tests of the engine's C calls. tests/engine.sh builds and runs this program. tests/faults.sh runs it with words: `first` makes it
   stop at the first test that fails, and the groups of tests that are named come before the others. */
#include <string.h>

#include "hand.h"

static const struct group {
    const char *name;
    const struct test *tests;
} groups[] = {
    {"words", word_tests},
    {"programs", program_tests},
    {"phases", phase_tests},
    {"refusals", refusal_tests},
    {"instructions", instruction_tests},
    {"flow", flow_tests},
    {"step_refusals", step_refusal_tests},
    {"published", published_tests},
    {"walks", walk_tests},
    {"walk_refusals", walk_refusal_tests},
    {"stack", stack_tests},
    {"boards", board_tests},
    {"board_refusals", board_refusal_tests},
    {"reads", read_tests},
    {"read_refusals", read_refusal_tests},
    {"writes", write_tests},
    {"random", random_tests},
    {"random_steps", random_step_tests},
    {"random_boards", random_board_tests},
    {"random_walks", random_walk_tests},
    {"random_images", random_image_tests},
};

static bool ran[COUNT(groups)];

static void run_group(size_t group)
{
    if (!ran[group])
        run_tests(groups[group].tests);
    ran[group] = true;
}

static void heed(const char *word)
{
    size_t group;

    if (strcmp(word, "first") == 0)
        stop_at_failure();
    for (group = 0; group < COUNT(groups); group++)
        if (strcmp(word, groups[group].name) == 0)
            run_group(group);
}

int main(int count, char **words)
{
    size_t group;
    int k;

    for (k = 1; k < count; k++)
        heed(words[k]);
    for (group = 0; group < COUNT(groups); group++)
        run_group(group);
    return report();
}
