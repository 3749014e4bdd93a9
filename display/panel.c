#include "panel.h"

#include <string.h>

#include "../common/names.h"
#include "fields.h"

/* Rows, from the top. Memory gets all that the others leave. */
enum {
    TITLE_ROW,
    CLOCKS_ROW,
    REGISTERS_ROW, /* a header, and eight registers a row */
    STATE_ROW = REGISTERS_ROW + 1 + AVM_REGISTERS / 8,
    FLAGS_ROW,
    CHANGED_ROW,
    INSTRUCTIONS_ROW,
    MICROWORD_ROW,
    MEMORY_ROW = MICROWORD_ROW + FIELD_LINES,
    ROWS_BELOW_MEMORY = MESSAGE_LINES + 1 /* and a row for the keys */
};

enum { SSP = 1 }; /* the supervisor stack pointer's register */

enum { WORD_COLUMN = 12, MAR_COLUMN = 40, STACK_COLUMN = 60 };

/* The last part of a path. */
static const char *file_of(const char *name)
{
    const char *slash = strrchr(name, '/');

    return slash == NULL ? name : slash + 1;
}

static void draw_clocks(struct frame *frame, const struct session *session)
{
    put(frame, TITLE_ROW, 0, "Schoonleech: %.28s on %.28s", file_of(session->program_name), file_of(session->image_name));
    put(frame, CLOCKS_ROW, 0, "microcycles %llu   steps %llu   request %s   %s, %u microcycle%s a second",
        (unsigned long long)session->bench.microcycles.count, (unsigned long long)session->bench.steps.count,
        session->bench.request ? "up" : "down", session->running ? "running" : "paused", session->speed,
        session->speed == 1 ? "" : "s");
}

static char mark(bool changed)
{
    return changed ? '*' : ' ';
}

static void draw_registers(struct frame *frame, const avm_board *now, const avm_board *before)
{
    size_t k;

    for (k = 0; k < AVM_REGISTERS; k++) {
        size_t row = REGISTERS_ROW + 1 + k / 8, column = 4 + 9 * (k % 8);

        if (k < 8)
            put(frame, REGISTERS_ROW, column + 1, "+%zu", k);
        if (k % 8 == 0)
            put(frame, row, 0, "r%zu", k);
        put(frame, row, column, "%c%08lX", mark(now->registers[k] != before->registers[k]), (unsigned long)now->registers[k]);
    }
}

static void draw_state(struct frame *frame, const avm_board *now, const avm_board *before)
{
    const struct {
        const char *name;
        uint32_t now, before;
    } words[] = {
        {"PC", now->pc, before->pc}, {"IR", now->ir, before->ir}, {"MAR", now->mar, before->mar}, {"MBR", now->mbr, before->mbr},
        {"IVEC", now->ivec, before->ivec},
    };
    size_t column = 0, k;

    for (k = 0; k < sizeof words / sizeof words[0]; k++)
        column = 2 + put(frame, STATE_ROW, column, "%s%c%08lX", words[k].name, mark(words[k].now != words[k].before),
                         (unsigned long)words[k].now);
    put(frame, STATE_ROW, column, "MPC%c%lu", mark(now->mpc != before->mpc), (unsigned long)now->mpc);
}

static void draw_flags(struct frame *frame, uint32_t now, uint32_t before)
{
    size_t column = put(frame, FLAGS_ROW, 0, "PSW%c%02lX", mark(now != before), (unsigned long)now), k;

    for (k = 0; k < FLAGS; k++)
        column = put(frame, FLAGS_ROW, column + 3, "%s%c%d", flags[k].name, mark(((now ^ before) & flags[k].mask) != 0),
                     (now & flags[k].mask) != 0);
}

static void draw_instructions(struct frame *frame, const struct bench *bench)
{
    const avm_board *board = &bench->now.board;
    char room[INSTRUCTION_ROOM];

    put(frame, INSTRUCTIONS_ROW, 0, "at PC   %s", tell_instruction(bench->now.memory[board->pc % bench->m], room));
    put(frame, INSTRUCTIONS_ROW, MAR_COLUMN, "in IR   %s", tell_instruction(board->ir, room));
}

static void draw_microword(struct frame *frame, const struct bench *bench)
{
    size_t at = bench->now.board.mpc, line, column;
    char room[FIELDS_ROOM];

    put(frame, MICROWORD_ROW, 0, "at MPC  %zu", at);
    if (at >= words_lent(&bench->program)) {
        put(frame, MICROWORD_ROW, WORD_COLUMN, "no word");
        return;
    }
    column = put(frame, MICROWORD_ROW, WORD_COLUMN, "%010llX", (unsigned long long)bench->program.words[at]);
    for (line = 0; line < FIELD_LINES; line++)
        put(frame, MICROWORD_ROW + line, line == 0 ? column + 2 : WORD_COLUMN, "%s", tell_fields(bench->program.words[at], line, room));
}

/* A window on memory: the word at an address, some words before it, and words after it down to the last row. */
struct window {
    const char *name;
    size_t column;
    uint32_t address;
    size_t before;
    bool in_names; /* the words are instructions */
};

static void draw_window(struct frame *frame, const struct bench *bench, size_t rows, struct window window)
{
    char room[INSTRUCTION_ROOM];
    size_t k, column;

    put(frame, MEMORY_ROW, window.column, "%s", window.name);
    for (k = 0; k < rows && k < bench->m; k++) {
        size_t at = (window.address + bench->m - window.before + k) % bench->m, row = MEMORY_ROW + 1 + k;
        uint32_t word = bench->now.memory[at];

        column = put(frame, row, window.column, "%c%5zu %c%08lX", k == window.before ? '>' : ' ', at,
                     mark(word != bench->before.memory[at]), (unsigned long)word);
        if (window.in_names)
            put(frame, row, column + 2, "%s", tell_instruction(word, room));
    }
}

/* A change that no window shows is seen here. A microcycle or a step changes one word of memory at most; more may come together on the way
   to a fetch point, and the first of them are shown. */
static void draw_changed(struct frame *frame, const struct bench *bench)
{
    enum { ENTRY = sizeof "  16383 *FFFFFFFF  .." - 1 };
    size_t column = 0, at;

    for (at = 0; at < bench->m && column + ENTRY <= FRAME_COLUMNS; at++)
        if (bench->now.memory[at] != bench->before.memory[at]) {
            column = column > 0 ? column + 2 : put(frame, CHANGED_ROW, 0, "changed in memory  ");
            column = put(frame, CHANGED_ROW, column, "%zu *%08lX", at, (unsigned long)bench->now.memory[at]);
        }
    for (; at < bench->m; at++)
        if (bench->now.memory[at] != bench->before.memory[at]) {
            put(frame, CHANGED_ROW, column, "  ..");
            return;
        }
}

/* Stacks grow upward, so what was pushed stands before the pointer. */
static void draw_memory(struct frame *frame, const struct bench *bench)
{
    const avm_board *board = &bench->now.board;
    const size_t rows = frame->rows - (MEMORY_ROW + 1) - ROWS_BELOW_MEMORY;
    const struct window windows[] = {
        {"memory around PC", 0, board->pc, 2, true},
        {"around MAR", MAR_COLUMN, board->mar, 2, false},
        {"stack before r1", STACK_COLUMN, board->registers[SSP], 4, false},
    };
    size_t k;

    for (k = 0; k < sizeof windows / sizeof windows[0]; k++)
        draw_window(frame, bench, rows, windows[k]);
}

static void draw_bench(struct frame *frame, const struct session *session)
{
    const struct bench *bench = &session->bench;
    size_t line;

    draw_clocks(frame, session);
    draw_registers(frame, &bench->now.board, &bench->before.board);
    draw_state(frame, &bench->now.board, &bench->before.board);
    draw_flags(frame, bench->now.board.psw, bench->before.board.psw);
    draw_changed(frame, bench);
    draw_instructions(frame, bench);
    draw_microword(frame, bench);
    draw_memory(frame, bench);
    for (line = 0; line < MESSAGE_LINES; line++)
        put(frame, frame->rows - ROWS_BELOW_MEMORY + line, 0, "%s", session->message[line]);
    put(frame, frame->rows - 1, 0, "m microcycle  i step  f fetch  r request  space run  +- speed  ? keys  q quit");
}

static void draw_help(struct frame *frame)
{
    size_t line;

    for (line = 0; line < HELP_LINES; line++)
        put(frame, line, 0, "%s", help_lines[line]);
}

void draw_panel(struct frame *frame, const struct session *session, size_t rows)
{
    clear_frame(frame, rows);
    if (session->help)
        draw_help(frame);
    else
        draw_bench(frame, session);
}
