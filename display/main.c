/* The example display. README.md says how it is used; this file only puts its pieces together. */
#include "../common/seconds.h"
#include "panel.h"
#include "start.h"
#include "terminal.h"

/* Whoever sends keys one by one gets each frame at once. */
static void print_panel(const struct session *session)
{
    static struct frame frame;

    draw_panel(&frame, session, FRAME_ROWS_FEWEST);
    print_frame(stdout, &frame);
    fflush(stdout);
}

/* Keys may stand on several lines, so the end of a line is no key. */
static void show_frames(struct session *session)
{
    int key;

    print_panel(session);
    while (!ferror(stdout) && (key = getchar()) != EOF) {
        if (key == '\n' || key == '\r')
            continue;
        press(session, (char)key);
        if (session->ended)
            return;
        putchar('\n');
        print_panel(session);
    }
}

static bool fits_on(struct size size)
{
    return size.columns >= FRAME_COLUMNS && size.rows >= FRAME_ROWS_FEWEST;
}

static void paint_panel(const struct session *session, struct size size)
{
    static struct frame frame;
    char words[FRAME_COLUMNS];

    if (fits_on(size)) {
        draw_panel(&frame, session, size.rows < FRAME_ROWS_MOST ? size.rows : FRAME_ROWS_MOST);
        paint_frame(stdout, &frame);
    } else {
        snprintf(words, sizeof words, "%dx%d needed, this is %zux%zu (q quits)", FRAME_COLUMNS, FRAME_ROWS_FEWEST, size.columns, size.rows);
        printf("\033[2J\033[H%.*s", (int)size.columns - 1, words);
    }
    fflush(stdout);
}

/* A board that can't be seen is not advanced either. */
static void show_on_terminal(struct session *session)
{
    double due = 0; /* when the next microcycle of a run is */
    enum event event = RESIZED;
    char key;

    session->on_terminal = true;
    while (!session->ended && event != ENDED && !ferror(stdout)) {
        struct size size = terminal_size();
        bool ran = session->running, runs = ran && fits_on(size) && !session->help;
        double left = due - seconds_now();

        if (event == RESIZED)
            fputs("\033[2J", stdout);
        paint_panel(session, size);
        event = wait_for_event(!runs ? -1 : left > 0 ? left : 0, &key);
        if (event == KEY && (key == 'q' || fits_on(size)))
            press(session, key);
        if (event == TIME && runs)
            microcycle(session);
        if (session->running && (!ran || event == TIME))
            due = seconds_now() + 1.0 / session->speed;
    }
}

static int serve(char **words, struct complaint *complaint)
{
    static struct session session;
    struct options options;

    if (!read_options(words, &options, complaint))
        return complaint->status;
    if (options.help) {
        print_help(stdout);
    } else if (!start_session(&session, &options, complaint)) {
        return complaint->status;
    } else if (options.frames || !take_terminal()) {
        show_frames(&session);
        if (ferror(stdin)) {
            complain(complaint, BAD_FILE, NULL, 0, "standard input can't be read");
            return BAD_FILE;
        }
    } else {
        show_on_terminal(&session);
        give_terminal_back();
    }
    return ALL_RIGHT;
}

int main(int argc, char **argv)
{
    struct complaint complaint;

    return end_program("display", serve(argv + (argc > 0), &complaint), &complaint);
}
