#include "options.h"

#include <string.h>

#include "../common/text.h"
#include "keys.h"

static bool bad_value(struct complaint *complaint, const char *option, const char *expected, const char *found)
{
    char quoted[QUOTED_ROOM] = "nothing";

    if (found != NULL)
        quote((struct word){found, strlen(found)}, quoted);
    return complain(complaint, BAD_COMMAND, NULL, 0, "%s: expected %s, found %s", option, expected, quoted);
}

static bool is_number(const char *value, uint32_t most, uint32_t *place)
{
    uint64_t number;

    if (value == NULL || !word_is_number((struct word){value, strlen(value)}, most, &number))
        return false;
    *place = (uint32_t)number;
    return true;
}

static bool read_words(const char *value, size_t *m, struct complaint *complaint)
{
    return (value != NULL && word_is_memory_length((struct word){value, strlen(value)}, m)) ||
           bad_value(complaint, "--words", MEMORY_LENGTH, value);
}

/* Register 0 is taken too: the library then refuses every call, and that can be shown. */
static bool read_register(const char *value, uint32_t registers[AVM_REGISTERS], struct complaint *complaint)
{
    const char *equals = value == NULL ? NULL : strchr(value, '=');
    uint64_t number;

    return (equals != NULL && word_is_number((struct word){value, (size_t)(equals - value)}, AVM_REGISTERS - 1, &number) &&
            is_number(equals + 1, UINT32_MAX, &registers[number])) ||
           bad_value(complaint, "--register", "N=VALUE, a register from 0 to 31 and a number from 0 to 4294967295", value);
}

/* An option that takes the word after it. */
static bool read_setting(const char *option, const char *value, struct options *options, struct complaint *complaint)
{
    const struct {
        const char *name;
        uint32_t *place, most;
    } numbers[] = {
        {"--pc", &options->start.pc, UINT32_MAX},
        {"--psw", &options->start.psw, AVM_PSW_ALL},
        {"--ivec", &options->start.ivec, UINT32_MAX},
        {"--mpc", &options->start.mpc, AVM_PROGRAM_MOST - 1},
    };
    char expected[40];
    size_t k;

    if (strcmp(option, "--words") == 0)
        return read_words(value, &options->m, complaint);
    if (strcmp(option, "--register") == 0)
        return read_register(value, options->start.registers, complaint);
    for (k = 0; k < sizeof numbers / sizeof numbers[0]; k++)
        if (strcmp(option, numbers[k].name) == 0) {
            snprintf(expected, sizeof expected, "a number from 0 to %lu", (unsigned long)numbers[k].most);
            return is_number(value, numbers[k].most, numbers[k].place) || bad_value(complaint, option, expected, value);
        }
    return misunderstood(complaint, "display", "no such option: ", option);
}

static bool is_switch(const char *option, struct options *options)
{
    if (strcmp(option, "--help") == 0)
        return options->help = true;
    if (strcmp(option, "--published") == 0)
        return options->published = true;
    if (strcmp(option, "--unchecked") == 0)
        return options->unchecked = true;
    return strcmp(option, "--frames") == 0 && (options->frames = true);
}

static bool fits(const struct options *options, struct complaint *complaint)
{
    if (options->help)
        return true;
    if (options->published && options->unchecked)
        return misunderstood(complaint, "display", "--unchecked is for a microprogram from a file", "");
    if (options->count == (options->published ? 1 : 2))
        return true;
    return misunderstood(complaint, "display", "expected ", options->published ? "IMAGE" : "MICROPROGRAM IMAGE");
}

bool read_options(char **words, struct options *options, struct complaint *complaint)
{
    memset(options, 0, sizeof *options);
    options->m = AVM_WORDS_MOST;
    options->start.mpc = AVM_FETCH;
    while (*words != NULL) {
        const char *word = *words++;

        if (word[0] != '-') {
            if (options->count == FILES_MOST)
                return misunderstood(complaint, "display", "one file too many: ", word);
            options->files[options->count++] = word;
        } else if (!is_switch(word, options)) {
            if (!read_setting(word, *words, options, complaint))
                return false;
            words++;
        }
    }
    return fits(options, complaint);
}

void print_help(FILE *out)
{
    size_t line;

    fputs("display [OPTION..] MICROPROGRAM IMAGE    shows a board, and keys advance it\n"
          "display [OPTION..] --published IMAGE     the same with the published microprogram\n"
          "display --help                           prints this\n"
          "\n"
          "    MICROPROGRAM        one microword a line, in hexadecimal digits\n"
          "    IMAGE               Intel HEX: what memory holds at the start\n"
          "\n"
          "    --words M           words of memory: a power of two from 16 to 16384, and 16384 where this is not said\n"
          "    --pc VALUE          what PC starts with; so with --psw, --ivec and --mpc, and all are 0 where this is not said\n"
          "    --register N=VALUE  the same for a register\n"
          "    --unchecked         takes a microprogram that avm_check refuses too, to see how far it goes\n"
          "    --frames            prints frames as plain text, on a terminal too\n"
          "\n"
          "Where standard input or output is no terminal, and with --frames, the characters of standard input are the keys. A frame is\n"
          "printed at the start and after each key.\n"
          "\n", out);
    for (line = 0; line < HELP_LINES; line++)
        fprintf(out, "%s\n", help_lines[line]);
    fputs("\n"
          "Status  0 ended by q, or by the end of the input\n"
          "        2 the command line is not understood\n"
          "        3 a file can't be read or is not of its form, or standard input can't be read\n"
          "        4 the microprogram is refused (numbers 4, 5, 17, 18)\n"
          "        5 the output can't be written\n"
          "\n"
          "docs/GRADER.md has the forms of the files.\n", out);
}
