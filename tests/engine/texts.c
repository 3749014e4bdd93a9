#include "texts.h"

#include <ctype.h>
#include <string.h>

#include "drawing.h"

size_t draw_any_length(struct dice *dice)
{
    return (size_t)16 << dice_below(dice, 11);
}

/* Small ones mostly: what is wrong with a text shows in them as well, in a fraction of the time. */
static size_t draw_length(struct dice *dice)
{
    size_t m = 16;

    if (dice_below(dice, 200) == 0)
        return draw_any_length(dice);
    while (m < 256 && dice_chance(dice, 25))
        m *= 2;
    return m;
}

void draw_memory(struct dice *dice, struct lent_image *image, size_t m)
{
    size_t word;

    for (word = 0; word < m; word++)
        image->memory[word] = draw_value(dice);
    image->m = m;
}

static uint8_t draw_digit(struct dice *dice)
{
    return (uint8_t)"0123456789ABCDEFabcdef"[dice_below(dice, 22)];
}

/* Digits, what stands beside them in texts and in ASCII, and anything. */
static uint8_t draw_byte(struct dice *dice)
{
    static const char others[] = ":\r\n \t/@G`g\n:";

    switch (dice_below(dice, 4)) {
    case 0: return (uint8_t)others[dice_below(dice, sizeof others - 1)];
    case 1: return (uint8_t)dice_next(dice);
    default: return draw_digit(dice);
    }
}

/* A piece of the text by its first byte and its length. */
struct piece {
    size_t start, length;
};

/* The line around that byte, with its end. */
static struct piece line_around(const struct lent_image *image, size_t place)
{
    struct piece line = {place, 0};
    size_t end = place;

    while (line.start > 0 && image->text[line.start - 1] != '\n')
        line.start--;
    while (end < image->bytes && image->text[end] != '\n')
        end++;
    line.length = (end < image->bytes ? end + 1 : end) - line.start;
    return line;
}

static struct piece draw_line(struct dice *dice, const struct lent_image *image)
{
    return line_around(image, dice_below(dice, image->bytes));
}

/* Puts bytes in the place of a piece, if there is room for them. */
static void replace(struct lent_image *image, struct piece piece, const void *bytes, size_t length)
{
    size_t behind = piece.start + piece.length;

    if (image->bytes - piece.length + length > TEXT_ROOM)
        return;
    memmove(image->text + piece.start + length, image->text + behind, image->bytes - behind);
    memcpy(image->text + piece.start, bytes, length);
    image->bytes = image->bytes - piece.length + length;
}

static void insert_copy(struct lent_image *image, size_t place, struct piece line)
{
    static uint8_t copy[TEXT_ROOM];
    struct piece nothing = {place, 0};

    memcpy(copy, image->text + line.start, line.length);
    replace(image, nothing, copy, line.length);
}

static void drop(struct lent_image *image, struct piece piece)
{
    replace(image, piece, "", 0);
}

static void move_line(struct dice *dice, struct lent_image *image)
{
    struct piece line = draw_line(dice, image), to = draw_line(dice, image);

    if (to.start <= line.start) {
        insert_copy(image, to.start, line);
        line.start += line.length;
        drop(image, line);
    } else {
        insert_copy(image, to.start + to.length, line);
        drop(image, line);
    }
}

static bool is_of_a_line_end(uint8_t byte)
{
    return byte == '\r' || byte == '\n';
}

/* LF, CR LF, a CR alone, no end, a blank line behind it, a blank before it, or two CR. */
static void change_line_end(struct dice *dice, struct lent_image *image)
{
    static const char *const ends[] = {"\n", "\r\n", "\r\n", "\r", "", "\n\n", " \n", "\r\r\n"};
    const char *other = ends[dice_below(dice, COUNT(ends))];
    struct piece line = draw_line(dice, image), end = {line.start + line.length, 0};

    while (end.start > line.start && is_of_a_line_end(image->text[end.start - 1])) {
        end.start--;
        end.length++;
    }
    replace(image, end, other, strlen(other));
}

/* CR LF throughout. */
static void change_all_line_ends(struct lent_image *image)
{
    static uint8_t old[TEXT_ROOM];
    size_t bytes = image->bytes, place;

    memcpy(old, image->text, bytes);
    image->bytes = 0;
    for (place = 0; place < bytes; place++) {
        if (old[place] == '\n' && (place == 0 || old[place - 1] != '\r'))
            add(image, "\r");
        add_bytes(image, old + place, 1);
    }
}

static void change_case(struct dice *dice, struct lent_image *image)
{
    bool all = dice_chance(dice, 50);
    size_t place;

    for (place = 0; place < image->bytes; place++)
        if (all || dice_chance(dice, 50))
            image->text[place] = (uint8_t)tolower(image->text[place]);
}

/* A digit in the count, the address or the type. */
static void change_field(struct dice *dice, struct lent_image *image)
{
    struct piece line = draw_line(dice, image);
    size_t place = 1 + dice_below(dice, 8);

    if (place < line.length)
        image->text[line.start + place] = draw_digit(dice);
}

static void change_a_byte(struct dice *dice, struct lent_image *image)
{
    uint8_t byte = draw_byte(dice);
    struct piece piece = {dice_below(dice, image->bytes + 1), 0};

    piece.length = dice_below(dice, 3) > 0 && piece.start < image->bytes;
    replace(image, piece, &byte, dice_chance(dice, 70) ? 1 : 0);
}

static void add_something(struct dice *dice, struct lent_image *image)
{
    static const char *const tails[] = {"\n", "\r", " ", ":", ":00000001FF\n", "\r\n", "\n\n", ":00000001FF"};

    add(image, tails[dice_below(dice, COUNT(tails))]);
}

static void cut_off(struct dice *dice, struct lent_image *image)
{
    size_t bytes = dice_below(dice, dice_chance(dice, 50) ? 3 : 40);

    image->bytes -= bytes < image->bytes ? bytes : image->bytes;
}

/* A byte, a line, the line ends or the case, now and then so that nothing is wrong with it. */
static void damage_text(struct dice *dice, struct lent_image *image)
{
    struct piece line;

    if (image->bytes == 0)
        return;
    line = draw_line(dice, image);
    switch (dice_below(dice, 14)) {
    case 0: drop(image, line); break;
    case 1: insert_copy(image, line.start, line); break;
    case 2: move_line(dice, image); break;
    case 3: change_line_end(dice, image); break;
    case 4: change_all_line_ends(image); break;
    case 5: change_case(dice, image); break;
    case 6: case 7: case 8: change_field(dice, image); break;
    case 9: add_something(dice, image); break;
    case 10: cut_off(dice, image); break;
    default: change_a_byte(dice, image); break;
    }
}

static unsigned value_of(uint8_t digit)
{
    return isdigit(digit) ? digit - (unsigned)'0' : (unsigned)(toupper(digit) - 'A' + 10);
}

/* Gives a line of whole bytes, no matter which, the checksum that makes its sum right. */
static void mend_line(uint8_t *line, size_t length)
{
    static const char digits[] = "0123456789ABCDEF";
    unsigned sum = 0;
    size_t place, end = 1;

    while (end < length && isxdigit(line[end]))
        end++;
    if (line[0] != ':' || end % 2 == 0 || end < 3)
        return;
    for (place = 1; place + 2 < end; place += 2)
        sum += value_of(line[place]) * 16 + value_of(line[place + 1]);
    line[end - 2] = (uint8_t)digits[(0u - sum) >> 4 & 15];
    line[end - 1] = (uint8_t)digits[(0u - sum) & 15];
}

static void mend_sums(struct lent_image *image)
{
    struct piece line;

    for (line.start = 0; line.start < image->bytes; line.start += line.length) {
        line = line_around(image, line.start);
        mend_line(image->text + line.start, line.length);
    }
}

static void draw_written(struct dice *dice, struct lent_image *image)
{
    size_t m = image->m;

    draw_memory(dice, image, m);
    image->bytes = AVM_WRITTEN(m);
    simulator.write(image->memory, m, image->text, image->bytes);
}

/* Where the next record starts: after the end of the last mostly, or a little further, or anywhere. */
static unsigned draw_address(struct dice *dice, const struct lent_image *image, unsigned end)
{
    size_t memory_end = image->m * 4;

    switch (dice_below(dice, 16)) {
    case 0: return (unsigned)dice_below(dice, 65536);
    case 1: return (unsigned)dice_below(dice, memory_end / 4 + 2) * 4 % 65536;
    case 2: return (unsigned)(memory_end - dice_below(dice, 3) * 4) % 65536;
    case 3: return end >= 4 ? end - 4 : end;
    default: return (end + (dice_chance(dice, 50) ? 0 : (unsigned)dice_below(dice, 3) * 4)) % 65536;
    }
}

/* Small counts, those that end with memory, and any. */
static unsigned draw_count(struct dice *dice, const struct lent_image *image, unsigned address)
{
    size_t memory_end = image->m * 4;

    switch (dice_below(dice, 10)) {
    case 0: return (unsigned)dice_below(dice, 256);
    case 1: return address < memory_end && memory_end - address <= 252 ? (unsigned)memory_end - address : 4;
    case 2: case 3: case 4: return 0;
    default: return 4 * (unsigned)dice_below(dice, 5);
    }
}

static unsigned draw_type(struct dice *dice)
{
    switch (dice_below(dice, 60)) {
    case 0: return 2 + (unsigned)dice_below(dice, 4);
    case 1: return (unsigned)dice_below(dice, 256);
    case 2: return 1;
    default: return 0;
    }
}

/* Records and mostly an end record; now and then the last line has no end. */
static void draw_records(struct dice *dice, struct lent_image *image)
{
    size_t records = dice_below(dice, dice_chance(dice, 60) ? 9 : 3);
    const char *line_end = dice_chance(dice, 30) ? "\r\n" : "\n";
    unsigned end = 0;

    image->bytes = 0;
    while (records-- > 0) {
        unsigned address = draw_address(dice, image, end), count = draw_count(dice, image, address);

        add_record(image, count, address, draw_type(dice), (uint8_t)dice_next(dice));
        add(image, line_end);
        end = address + count;
    }
    if (dice_chance(dice, 85)) {
        add(image, ":00000001FF");
        add(image, line_end);
    }
    if (image->bytes > 0 && dice_chance(dice, 20))
        image->bytes -= strlen(line_end);
}

static void draw_noise(struct dice *dice, struct lent_image *image)
{
    size_t length = dice_below(dice, 60), place;
    bool any = dice_chance(dice, 30);

    image->bytes = 0;
    if (dice_chance(dice, 40))
        add_record(image, 4, 0, 0, 1);
    for (place = 0; place < length; place++) {
        uint8_t byte = any ? (uint8_t)dice_next(dice) : draw_byte(dice);

        add_bytes(image, &byte, 1);
    }
}

static void draw_damages(struct dice *dice, struct lent_image *image)
{
    size_t damages = dice_chance(dice, 40) ? 0 : 1 + dice_below(dice, 3);

    while (damages-- > 0)
        damage_text(dice, image);
    if (dice_chance(dice, 60))
        mend_sums(image);
}

/* The text is drawn for a legal memory, also where another one is lent with it. */
void draw_image(struct dice *dice, struct lent_image *image)
{
    static const size_t bad_lengths[] = {0, 1, 8, 15, 17, 24, 48, 1000, 32768};
    size_t kind = dice_below(dice, 20);

    image->m = draw_length(dice);
    if (kind == 0) {
        draw_noise(dice, image);
    } else {
        (kind < 10 ? draw_written : draw_records)(dice, image);
        draw_damages(dice, image);
    }
    draw_memory(dice, image, dice_chance(dice, 1) ? bad_lengths[dice_below(dice, COUNT(bad_lengths))] : image->m);
}
