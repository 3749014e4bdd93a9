#include "requests.h"

#include <string.h>

/* Where a reader of a request log stands. */
struct reading {
    struct cursor cursor;
    struct requests *requests;
    struct complaint *complaint;
    uint32_t settings;  /* a bit for each setting that was there */
    uint32_t registers; /* and for each register */
    uint64_t last_from; /* the last microcycle that a from named, 0 before the first */
    bool ended;         /* until was there */
};

static bool once(struct reading *reading, uint32_t *seen, unsigned bit, const char *what, struct word word)
{
    if ((*seen >> bit & 1) != 0)
        return unexpected(&reading->cursor, &word, reading->complaint, "each %s once", what);
    *seen |= (uint32_t)1 << bit;
    return true;
}

static bool read_memory_length(struct reading *reading)
{
    struct word word;
    bool there = next_word(&reading->cursor, &word);

    return (there && word_is_memory_length(word, &reading->requests->start.m)) ||
           unexpected(&reading->cursor, there ? &word : NULL, reading->complaint, MEMORY_LENGTH);
}

static bool read_register(struct reading *reading)
{
    struct cursor before = reading->cursor;
    uint64_t number, value;
    struct word word;

    next_word(&before, &word);
    if (!take_number(&reading->cursor, "register", 1, AVM_REGISTERS - 1, &number, reading->complaint) ||
        !once(reading, &reading->registers, (unsigned)number, "register", word) ||
        !take_number(&reading->cursor, "number", 0, UINT32_MAX, &value, reading->complaint))
        return false;
    reading->requests->start.registers[number] = (uint32_t)value;
    return true;
}

static bool read_setting(struct reading *reading, struct word word)
{
    uint64_t value;
    size_t part;

    if (word_is(word, "words"))
        return once(reading, &reading->settings, PART_SETTINGS, "setting", word) && read_memory_length(reading);
    if (word_is(word, "register"))
        return read_register(reading);
    if (!setting_named(word, &part))
        return unexpected(&reading->cursor, &word, reading->complaint, "words, pc, psw, ivec, register, from or until");
    if (!once(reading, &reading->settings, (unsigned)part, "setting", word) ||
        !take_number(&reading->cursor, "number", 0, part_most(part), &value, reading->complaint))
        return false;
    set_part(&reading->requests->start, part, (uint32_t)value);
    return true;
}

static bool word_is_request(struct word word, uint8_t *request)
{
    enum { BOTH = AVM_REQUEST_INTERRUPT | AVM_REQUEST_RESET };
    static const char *const names[] = {"none", [AVM_REQUEST_INTERRUPT] = "interrupt", [AVM_REQUEST_RESET] = "reset", [BOTH] = "both"};

    for (*request = 0; *request <= BOTH; ++*request)
        if (word_is(word, names[*request]))
            return true;
    return false;
}

static bool read_from(struct reading *reading)
{
    bool first = reading->last_from == 0, there;
    struct word word;
    uint8_t request;

    if (!take_number(&reading->cursor, "microcycle", reading->last_from + 1, first ? 1 : MICROCYCLES_MOST, &reading->last_from,
                     reading->complaint))
        return false;
    there = next_word(&reading->cursor, &word);
    return (there && word_is_request(word, &request)) ||
           unexpected(&reading->cursor, there ? &word : NULL, reading->complaint, "none, interrupt, reset or both");
}

static bool read_until(struct reading *reading, struct word word)
{
    if (reading->last_from == 0)
        return unexpected(&reading->cursor, &word, reading->complaint, "a line 'from 1' before it");
    reading->ended = true;
    reading->requests->until_line = reading->cursor.line;
    return take_number(&reading->cursor, "microcycle", reading->last_from, MICROCYCLES_MOST, &reading->requests->until.count,
                       reading->complaint);
}

static bool read_line(struct reading *reading, const struct cursor *before)
{
    struct word word;
    bool good;

    next_word(&reading->cursor, &word);
    if (reading->ended)
        return unexpected(&reading->cursor, &word, reading->complaint, "nothing after until");
    if (reading->last_from == MICROCYCLES_MOST && !word_is(word, "until"))
        return unexpected(&reading->cursor, &word, reading->complaint, "until, since no microcycle comes after %d", MICROCYCLES_MOST);
    if (word_is(word, "from")) {
        if (reading->last_from == 0)
            reading->requests->first_from = *before;
        good = read_from(reading);
    } else if (word_is(word, "until")) {
        good = read_until(reading, word);
    } else if (reading->last_from > 0) {
        return unexpected(&reading->cursor, &word, reading->complaint, "from or until, since the starting state comes before them");
    } else {
        good = read_setting(reading, word);
    }
    return good && take_line_end(&reading->cursor, reading->complaint);
}

bool read_requests(const struct text *text, struct requests *requests, struct complaint *complaint)
{
    struct reading reading = {start_of(text), requests, complaint, 0, 0, 0, false};
    struct cursor before = reading.cursor;

    memset(&requests->start, 0, sizeof requests->start);
    requests->start.m = AVM_WORDS_MOST;
    requests->start.state[AVM_MPC] = AVM_FETCH;
    while (next_line(&reading.cursor)) {
        if (!read_line(&reading, &before))
            return false;
        before = reading.cursor;
    }
    return reading.ended ||
           complain(complaint, BAD_FILE, text->name, reading.cursor.line, "expected a last line with until, found the end of the file");
}

/* To the next line. It was read before, so it is of its form. */
static void look_ahead(struct request_line *line)
{
    struct word word;

    next_line(&line->cursor);
    next_word(&line->cursor, &word);
    if (word_is(word, "until")) {
        line->until = UINT64_MAX;
        return;
    }
    next_word(&line->cursor, &word);
    word_is_number(word, MICROCYCLES_MOST, &line->until);
    next_word(&line->cursor, &word);
    word_is_request(word, &line->next);
}

struct request_line start_request_line(const struct requests *requests)
{
    struct request_line line = {requests->first_from, 0, 0, 0};

    look_ahead(&line);
    return line;
}

uint8_t request_of(struct request_line *line, uint64_t microcycle)
{
    if (microcycle >= line->until) {
        line->request = line->next;
        look_ahead(line);
    }
    return line->request;
}
