#include "screen.h"

#include <string.h>

void resize_screen(struct screen *screen, size_t columns, size_t rows)
{
    screen->columns = columns;
    screen->rows = rows;
    screen->column = screen->row = 0;
    screen->stale = screen->alternate;
    screen->erased = 0;
    memset(screen->text, '#', sizeof screen->text);
    memset(screen->reversed, 0, sizeof screen->reversed);
}

/* Text in the last column leaves the cursor there, and erasing begins at the cursor. */
static void erase(struct screen *screen, size_t row, size_t column)
{
    if (column == screen->columns)
        column--;
    for (; column < screen->columns; column++) {
        screen->text[row][column] = ' ';
        screen->reversed[row][column] = false;
    }
}

static void erase_rows(struct screen *screen, size_t row)
{
    for (; row < screen->rows; row++)
        erase(screen, row, 0);
}

static void turn_alternate(struct screen *screen, bool on)
{
    if (screen->alternate == on)
        screen->fault = "the alternate screen is entered or left twice";
    screen->alternate = on;
    ++*(on ? &screen->entered : &screen->left);
    screen->column = screen->row = 0;
    memset(screen->text, '#', sizeof screen->text);
}

static void obey(struct screen *screen)
{
    const char *sequence = screen->sequence;

    if (strcmp(sequence, "\033[?1049h") == 0 || strcmp(sequence, "\033[?1049l") == 0) {
        turn_alternate(screen, sequence[7] == 'h');
    } else if (strcmp(sequence, "\033[?25l") == 0 || strcmp(sequence, "\033[?25h") == 0) {
        screen->cursor_hidden = sequence[5] == 'l';
    } else if (strcmp(sequence, "\033[7m") == 0 || strcmp(sequence, "\033[0m") == 0) {
        screen->reverse = sequence[2] == '7';
    } else if (strcmp(sequence, "\033[H") == 0) {
        screen->column = screen->row = 0;
    } else if (strcmp(sequence, "\033[K") == 0) {
        erase(screen, screen->row, screen->column);
    } else if (strcmp(sequence, "\033[2J") == 0) {
        erase_rows(screen, 0);
        screen->erased++;
        screen->stale = false;
    } else {
        screen->fault = "a sequence that is not known";
    }
}

static void take_sequence(struct screen *screen, char byte)
{
    screen->sequence[screen->length++] = byte;
    screen->sequence[screen->length] = '\0';
    if (byte >= '@' && byte <= '~' && byte != '[') {
        obey(screen);
        screen->length = 0;
    } else if (screen->length + 1 == SEQUENCE_ROOM) {
        screen->fault = "a sequence without an end";
        screen->length = 0;
    }
}

static void take_text(struct screen *screen, char byte)
{
    if (!screen->alternate)
        screen->fault = "text outside of the alternate screen";
    else if (screen->column == screen->columns)
        screen->fault = "text beyond the last column";
    else if (byte < ' ' || byte > '~')
        screen->fault = "a byte that is no text";
    if (screen->fault != NULL)
        return;
    screen->reversed[screen->row][screen->column] = screen->reverse;
    screen->text[screen->row][screen->column++] = byte;
}

void write_to_screen(struct screen *screen, const char *bytes, size_t count)
{
    for (; count > 0 && screen->fault == NULL; count--, bytes++)
        if (screen->length > 0 || *bytes == '\033')
            take_sequence(screen, *bytes);
        else if (screen->stale)
            continue;
        else if (*bytes == '\r')
            screen->column = 0;
        else if (*bytes != '\n')
            take_text(screen, *bytes);
        else if (++screen->row == screen->rows)
            screen->fault = "a line feed in the last row";
}

const char *row_of(const struct screen *screen, size_t row, char room[COLUMNS_MOST + 1])
{
    size_t length = screen->columns;

    while (length > 0 && screen->text[row][length - 1] == ' ')
        length--;
    memcpy(room, screen->text[row], length);
    room[length] = '\0';
    return room;
}

bool stars_are_reversed(const struct screen *screen)
{
    size_t row, column;

    for (row = 0; row < screen->rows; row++) {
        bool value = false; /* with a star */

        for (column = 0; column < screen->columns; column++) {
            value = screen->text[row][column] == '*' || (value && screen->text[row][column] != ' ');
            if (screen->reversed[row][column] != value)
                return false;
        }
    }
    return true;
}
