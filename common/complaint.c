#include "complaint.h"

#include <stdarg.h>

bool complain(struct complaint *complaint, int status, const char *file, size_t line, const char *format, ...)
{
    va_list values;

    complaint->status = status;
    complaint->file = file;
    complaint->line = line;
    va_start(values, format);
    vsnprintf(complaint->words, sizeof complaint->words, format, values);
    va_end(values);
    return false;
}

bool misunderstood(struct complaint *complaint, const char *program, const char *what, const char *word)
{
    return complain(complaint, BAD_COMMAND, NULL, 0, "%s%.60s; '%s --help' says how it is called", what, word, program);
}

static void print_complaint(const char *program, const struct complaint *complaint)
{
    fputs(complaint->file == NULL ? program : complaint->file, stderr);
    if (complaint->line > 0)
        fprintf(stderr, ":%zu", complaint->line);
    fprintf(stderr, ": %s\n", complaint->words);
}

int end_program(const char *program, int status, struct complaint *complaint)
{
    if (status < BAD_COMMAND && (fflush(stdout) != 0 || ferror(stdout))) {
        status = OUTPUT_LOST;
        complain(complaint, status, NULL, 0, "the output can't be written");
    }
    if (status >= BAD_COMMAND)
        print_complaint(program, complaint);
    return status;
}
