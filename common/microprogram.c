#include "microprogram.h"

#include "numbers.h"

static bool read_words(const struct text *text, struct microprogram *program, struct complaint *complaint)
{
    struct cursor cursor = start_of(text);
    struct word word;
    uint64_t microword;

    for (program->count = 0; next_line(&cursor) && next_word(&cursor, &word); program->count++) {
        if (!word_is_hexadecimal(word, &microword))
            return unexpected(&cursor, &word, complaint, "a microword of 1 to 16 hexadecimal digits");
        if (!take_line_end(&cursor, complaint))
            return false;
        if (program->count < PROGRAM_ROOM) {
            program->words[program->count] = microword;
            program->lines[program->count] = cursor.line;
        }
    }
    return true;
}

/* The line to look at: that of the word which the answer names, or of the first word too many. */
static size_t refused_line(const struct microprogram *program, avm_answer answer)
{
    if (answer.number != AVM_BAD_PROGRAM_LENGTH)
        return program->lines[answer.at];
    return program->count > AVM_PROGRAM_MOST ? program->lines[AVM_PROGRAM_MOST] : 0;
}

static bool check_words(const struct text *text, struct microprogram *program, struct complaint *complaint)
{
    avm_answer answer = avm_check(program->words, words_lent(program));
    char words[WORDS_ROOM];

    program->longest = answer.microcycles;
    if (answer.number == AVM_DONE)
        return true;
    tell_check(answer, program->words, program->count, words);
    return complain(complaint, PROGRAM_REFUSED, text->name, refused_line(program, answer), "%s", words);
}

bool read_microprogram(const struct text *text, struct microprogram *program, struct complaint *complaint)
{
    return read_words(text, program, complaint) && check_words(text, program, complaint);
}

size_t words_lent(const struct microprogram *program)
{
    return program->count < PROGRAM_ROOM ? program->count : PROGRAM_ROOM;
}

void print_published(FILE *out)
{
    unsigned k;

    for (k = 0; k < AVM_PROGRAM_MOST; k++)
        fprintf(out, "%010llX    # %u\n", (unsigned long long)avm_published(k), k);
}
