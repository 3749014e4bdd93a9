#include "options.h"

#include <string.h>

static bool choose(struct options *options, enum mode mode, const char *word, struct complaint *complaint)
{
    if (options->mode != MARK)
        return misunderstood(complaint, "grader", "one option too many: ", word);
    options->mode = mode;
    return true;
}

static bool read_option(struct options *options, const char *word, struct complaint *complaint)
{
    if (strcmp(word, "--record") == 0)
        return choose(options, RECORD, word, complaint);
    if (strcmp(word, "--published") == 0)
        return choose(options, PUBLISHED, word, complaint);
    if (strcmp(word, "--help") == 0)
        return choose(options, HELP, word, complaint);
    if (strcmp(word, "--brief") == 0)
        return options->brief = true;
    if (strcmp(word, "--microcycles") == 0)
        return options->microcycles = true;
    return misunderstood(complaint, "grader", "no such option: ", word);
}

static bool fits(const struct options *options, struct complaint *complaint)
{
    static const size_t wanted[] = {[MARK] = FILES, [RECORD] = EXPECTED, [PUBLISHED] = 0, [HELP] = 0};
    static const char *const files[] = {"MICROPROGRAM IMAGE REQUESTS EXPECTED", "MICROPROGRAM IMAGE REQUESTS", "no file", "no file"};

    if (options->brief && options->mode != MARK)
        return misunderstood(complaint, "grader", "--brief is for marking alone", "");
    if (options->microcycles && options->mode > RECORD)
        return misunderstood(complaint, "grader", "--microcycles is for marking and recording alone", "");
    if (options->files != wanted[options->mode])
        return misunderstood(complaint, "grader", "expected ", files[options->mode]);
    return true;
}

bool read_options(int argc, char **argv, struct options *options, struct complaint *complaint)
{
    int k;

    memset(options, 0, sizeof *options);
    for (k = 1; k < argc; k++)
        if (argv[k][0] == '-') {
            if (!read_option(options, argv[k], complaint))
                return false;
        } else if (options->files == FILES) {
            return misunderstood(complaint, "grader", "one file too many: ", argv[k]);
        } else {
            options->names[options->files++] = argv[k];
        }
    return fits(options, complaint);
}

void print_help(FILE *out)
{
    fputs("grader [--brief] [--microcycles] MICROPROGRAM IMAGE REQUESTS EXPECTED   marks a run\n"
          "grader --record [--microcycles] MICROPROGRAM IMAGE REQUESTS             prints the log of a run, as an expected log\n"
          "grader --published                                                      prints the published microprogram\n"
          "grader --help                                                           prints this\n"
          "\n"
          "A run is marked at its fetch points, that is at each return to fetch, by all that a programmer sees there: program counter,\n"
          "status word, registers and memory.\n"
          "\n"
          "    --brief        only what is wrong, and the verdict\n"
          "    --microcycles  every microcycle too, in a column of its own; the mark stays that of the fetch points\n"
          "\n"
          "    MICROPROGRAM   one microword a line, in hexadecimal digits\n"
          "    IMAGE          Intel HEX: what memory holds at the start\n"
          "    REQUESTS       the other starting values, the request line and the number of microcycles\n"
          "    EXPECTED       what changes at each fetch point\n"
          "\n"
          "Status  0 every mark is right\n"
          "        1 a mark is wrong; a fetch point that is not reached counts as wrong\n"
          "        2 the command line is not understood\n"
          "        3 a file can't be read or is not of its form, or a run to record ends before its first fetch point\n"
          "        4 the microprogram is refused (numbers 4, 5, 17, 18), or, against its promise, the library refuses a microcycle\n"
          "        5 the output can't be written\n"
          "\n"
          "docs/GRADER.md has the forms of the files, with examples.\n", out);
}
