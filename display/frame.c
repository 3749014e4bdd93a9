#include "frame.h"

#include <stdarg.h>
#include <stdbool.h>
#include <string.h>

void clear_frame(struct frame *frame, size_t rows)
{
    memset(frame, 0, sizeof *frame);
    frame->rows = rows;
}

size_t put(struct frame *frame, size_t row, size_t column, const char *format, ...)
{
    char *line = frame->text[row], words[FRAME_COLUMNS + 1];
    size_t length = strlen(line), k;
    va_list values;

    va_start(values, format);
    vsnprintf(words, sizeof words, format, values);
    va_end(values);
    for (; words[0] != '\0' && length < column && length < FRAME_COLUMNS; length++)
        line[length] = ' ';
    for (k = 0; words[k] != '\0' && column < FRAME_COLUMNS; k++, column++)
        line[column] = (char)(words[k] >= ' ' && words[k] <= '~' ? words[k] : '?');
    return column;
}

void print_frame(FILE *out, const struct frame *frame)
{
    size_t row;

    for (row = 0; row < frame->rows; row++)
        fprintf(out, "%s\n", frame->text[row]);
}

/* Text in the last column can leave the cursor there, so that a line of full width is not erased from the cursor on. */
static void paint_line(FILE *out, const char *line)
{
    bool reverse = false;
    size_t column;

    for (column = 0; line[column] != '\0'; column++) {
        if (line[column] == '*' && !reverse)
            fputs("\033[7m", out);
        if (line[column] == ' ' && reverse)
            fputs("\033[0m", out);
        reverse = line[column] == '*' || (reverse && line[column] != ' ');
        putc(line[column], out);
    }
    if (reverse)
        fputs("\033[0m", out);
    if (column < FRAME_COLUMNS)
        fputs("\033[K", out);
}

void paint_frame(FILE *out, const struct frame *frame)
{
    size_t row;

    fputs("\033[H", out);
    for (row = 0; row < frame->rows; row++) {
        fputs(row == 0 ? "" : "\r\n", out);
        paint_line(out, frame->text[row]);
    }
}
