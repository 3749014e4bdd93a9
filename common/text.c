#include "text.h"

#include <errno.h>
#include <stdarg.h>
#include <stdlib.h>
#include <string.h>

static bool cannot_read(const char *name, struct complaint *complaint)
{
    return complain(complaint, BAD_FILE, name, 0, "can't be read: %s", strerror(errno));
}

static bool read_stream(FILE *stream, struct text *text, struct complaint *complaint)
{
    size_t room = 0;
    char *larger;

    do {
        if (text->length == TEXT_MOST)
            return complain(complaint, BAD_FILE, text->name, 0, "expected fewer than %d bytes, found at least that many",
                            TEXT_MOST);
        room = room == 0 ? 4096 : room * 2;
        larger = realloc(text->bytes, room);
        if (larger == NULL)
            return cannot_read(text->name, complaint);
        text->bytes = larger;
        text->length += fread(text->bytes + text->length, 1, room - text->length, stream);
    } while (text->length == room);
    return !ferror(stream) || cannot_read(text->name, complaint);
}

bool read_text(const char *name, struct text *text, struct complaint *complaint)
{
    FILE *stream;
    bool good;

    text->name = name;
    text->bytes = NULL;
    text->length = 0;
    stream = fopen(name, "rb");
    if (stream == NULL)
        return cannot_read(name, complaint);
    good = read_stream(stream, text, complaint);
    fclose(stream);
    return good;
}

void free_text(struct text *text)
{
    free(text->bytes);
    text->bytes = NULL;
}

bool word_is(struct word word, const char *wanted)
{
    return word.length == strlen(wanted) && memcmp(word.start, wanted, word.length) == 0;
}

unsigned digit(char character)
{
    static const char digits[] = "0123456789abcdefABCDEF";
    const char *found = character == '\0' ? NULL : strchr(digits, character);

    if (found == NULL)
        return 16;
    return (unsigned)(found - digits) < 16 ? (unsigned)(found - digits) : (unsigned)(found - digits) - 6;
}

static bool digits_of(struct word word, unsigned base, uint64_t most, uint64_t *number)
{
    size_t k;

    *number = 0;
    for (k = 0; k < word.length; k++) {
        unsigned value = digit(word.start[k]);

        if (value >= base || value > most || *number > (most - value) / base)
            return false;
        *number = *number * base + value;
    }
    return word.length > 0;
}

static bool without_0x(struct word *word)
{
    if (word->length < 2 || word->start[0] != '0' || (word->start[1] != 'x' && word->start[1] != 'X'))
        return false;
    word->start += 2;
    word->length -= 2;
    return true;
}

bool word_is_number(struct word word, uint64_t most, uint64_t *number)
{
    return without_0x(&word) ? digits_of(word, 16, most, number) : digits_of(word, 10, most, number);
}

bool word_is_memory_length(struct word word, size_t *m)
{
    uint64_t number;

    if (!word_is_number(word, AVM_WORDS_MOST, &number) || number < AVM_WORDS_FEWEST || (number & (number - 1)) != 0)
        return false;
    *m = (size_t)number;
    return true;
}

bool word_is_hexadecimal(struct word word, uint64_t *number)
{
    without_0x(&word);
    return word.length <= 16 && digits_of(word, 16, UINT64_MAX, number);
}

struct cursor start_of(const struct text *text)
{
    struct cursor cursor = {text, 0, 0, 0, 0};

    return cursor;
}

static void skip_blanks(struct cursor *cursor)
{
    const char *bytes = cursor->text->bytes;

    while (cursor->place < cursor->line_ends && (bytes[cursor->place] == ' ' || bytes[cursor->place] == '\t'))
        cursor->place++;
}

static void enter_next_line(struct cursor *cursor)
{
    const char *start = cursor->text->bytes + cursor->next_line;
    size_t left = cursor->text->length - cursor->next_line;
    const char *feed = memchr(start, '\n', left), *comment;
    size_t length = feed == NULL ? left : (size_t)(feed - start);

    cursor->line++;
    cursor->place = cursor->next_line;
    cursor->next_line += feed == NULL ? left : length + 1;
    if (feed != NULL && length > 0 && start[length - 1] == '\r')
        length--;
    comment = memchr(start, '#', length);
    cursor->line_ends = cursor->place + (comment == NULL ? length : (size_t)(comment - start));
    skip_blanks(cursor);
}

bool next_line(struct cursor *cursor)
{
    while (cursor->next_line < cursor->text->length) {
        enter_next_line(cursor);
        if (cursor->place < cursor->line_ends)
            return true;
    }
    return false;
}

bool next_word(struct cursor *cursor, struct word *word)
{
    const char *bytes = cursor->text->bytes;
    size_t start;

    skip_blanks(cursor);
    start = cursor->place;
    while (cursor->place < cursor->line_ends && bytes[cursor->place] != ' ' && bytes[cursor->place] != '\t')
        cursor->place++;
    word->start = bytes + start;
    word->length = cursor->place - start;
    return word->length > 0;
}

const char *quote(struct word word, char room[QUOTED_ROOM])
{
    size_t length = word.length <= QUOTED_MOST ? word.length : QUOTED_MOST, k;

    room[0] = '\'';
    for (k = 0; k < length; k++)
        room[k + 1] = (char)(word.start[k] >= ' ' && word.start[k] <= '~' ? word.start[k] : '?');
    strcpy(room + length + 1, length < word.length ? "..'" : "'");
    return room;
}

bool unexpected(const struct cursor *cursor, const struct word *found, struct complaint *complaint, const char *expected, ...)
{
    char wanted[WORDS_ROOM / 2], quoted[QUOTED_ROOM] = "the end of the line";
    va_list values;

    va_start(values, expected);
    vsnprintf(wanted, sizeof wanted, expected, values);
    va_end(values);
    if (found != NULL)
        quote(*found, quoted);
    return complain(complaint, BAD_FILE, cursor->text->name, cursor->line, "expected %s, found %s", wanted, quoted);
}

bool take_number(struct cursor *cursor, const char *noun, uint64_t least, uint64_t most, uint64_t *number, struct complaint *complaint)
{
    struct word word;
    bool there = next_word(cursor, &word);

    if (there && word_is_number(word, most, number) && *number >= least)
        return true;
    if (least == most)
        return unexpected(cursor, there ? &word : NULL, complaint, "%s %llu", noun, (unsigned long long)least);
    return unexpected(cursor, there ? &word : NULL, complaint, "a %s from %llu to %llu", noun, (unsigned long long)least,
                      (unsigned long long)most);
}

bool take_line_end(struct cursor *cursor, struct complaint *complaint)
{
    struct word word;

    return !next_word(cursor, &word) || unexpected(cursor, &word, complaint, "the end of the line");
}
