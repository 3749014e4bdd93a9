/* Runs a program in a pseudo-terminal and follows a script on standard input: terminal COLUMNS ROWS PROGRAM ARGUMENT.. The commands:

       type TEXT          the keys of the text
       code NUMBER        the key with that code
       screen FILE        waits until the screen shows exactly the lines of the file, with its stars and their values in reverse video
       line TEXT          waits until a row has the text in it
       row NUMBER TEXT    waits until that row, counted from 1, is exactly the text
       taken              the terminal gives single keys without echo, on the alternate screen, with no cursor
       still              what is being written ends, and nothing more comes for a while
       resize ACROSS DOWN changes the columns and rows
       erased TIMES       waits until the whole screen was erased so often since its size changed
       signal NUMBER      sends it to the program
       ended STATUS       waits for the end with that status, 128 and more for a signal; the terminal is then as it was

   What does not come true in time is told, with the screen. The status is 0 if all came true. */
#define _XOPEN_SOURCE 700

#include <fcntl.h>
#include <poll.h>
#include <signal.h>
#include <stdio.h>
#include <stdlib.h>
#include <string.h>
#include <sys/ioctl.h>
#include <sys/wait.h>
#include <termios.h>
#include <time.h>
#include <unistd.h>

#include "screen.h"

enum { TURN = 20, SETTLED = 50, A_WHILE = 150 }; /* milliseconds */
enum { PATIENCE = 20 };                          /* seconds, which only a busy machine needs */
enum { SETTLING_MOST = 100 };                    /* times that something is written until all is still */

static struct screen screen;
static struct termios settings_before;
static int terminal = -1, side = -1; /* the driver's end and the program's */
static pid_t child; /* 0 where there is none, or none any more: no signal may go to another process */

static void fail(const char *command, const char *why)
{
    char room[COLUMNS_MOST + 1];
    size_t row;

    printf("%s: %s\n", command, screen.fault != NULL ? screen.fault : why);
    for (row = 0; row < screen.rows; row++)
        printf("|%s\n", row_of(&screen, row, room));
    if (child > 0)
        kill(child, SIGKILL);
    exit(1);
}

static void set_size(size_t columns, size_t rows)
{
    struct winsize size = {0};

    if (columns > COLUMNS_MOST || rows > ROWS_MOST)
        exit(2);
    size.ws_col = (unsigned short)columns;
    size.ws_row = (unsigned short)rows;
    ioctl(terminal, TIOCSWINSZ, &size);
    resize_screen(&screen, columns, rows);
}

/* The program's end stays open here, so that it can be looked at when the program has ended too. */
static void start(char **words)
{
    terminal = posix_openpt(O_RDWR | O_NOCTTY);
    if (terminal < 0 || grantpt(terminal) != 0 || unlockpt(terminal) != 0)
        exit(2);
    side = open(ptsname(terminal), O_RDWR | O_NOCTTY);
    set_size((size_t)atoi(words[0]), (size_t)atoi(words[1]));
    tcgetattr(side, &settings_before);
    child = fork();
    if (child < 0)
        exit(2);
    if (child > 0)
        return;
    setsid();
    ioctl(side, TIOCSCTTY, 0);
    dup2(side, STDIN_FILENO);
    dup2(side, STDOUT_FILENO);
    close(side);
    close(terminal);
    execvp(words[2], words + 2);
    _exit(127);
}

/* Takes what the program writes within that time; false if it writes nothing. */
static bool take_output(int milliseconds)
{
    struct pollfd output = {terminal, POLLIN, 0};
    char bytes[4096];
    ssize_t count;

    if (poll(&output, 1, milliseconds) <= 0)
        return false;
    count = read(terminal, bytes, sizeof bytes);
    if (count > 0)
        write_to_screen(&screen, bytes, (size_t)count);
    return count > 0;
}

/* The commands. Each is tried again and again until it is true. */

static bool type(const char *keys)
{
    if (write(terminal, keys, strlen(keys)) != (ssize_t)strlen(keys))
        fail("type", "the terminal takes no keys");
    return true;
}

static bool code(const char *number)
{
    const char key[2] = {(char)atoi(number), '\0'};

    return type(key);
}

static bool shows_file(const char *name)
{
    static char shown[ROWS_MOST * (COLUMNS_MOST + 1) + 1], wanted[sizeof shown];
    char room[COLUMNS_MOST + 1];
    FILE *file = fopen(name, "r");
    size_t row;

    if (file == NULL)
        fail(name, "can't be read");
    wanted[fread(wanted, 1, sizeof wanted - 1, file)] = '\0';
    fclose(file);
    shown[0] = '\0';
    for (row = 0; row < screen.rows; row++)
        strcat(strcat(shown, row_of(&screen, row, room)), "\n");
    return strcmp(wanted, shown) == 0 && stars_are_reversed(&screen);
}

static bool shows_line(const char *text)
{
    char room[COLUMNS_MOST + 1];
    size_t row;

    for (row = 0; row < screen.rows; row++)
        if (strstr(row_of(&screen, row, room), text) != NULL)
            return true;
    return false;
}

static bool shows_row(const char *wanted)
{
    const unsigned row = (unsigned)atoi(wanted);
    const char *text = strchr(wanted, ' ');
    char room[COLUMNS_MOST + 1];

    return row >= 1 && row <= screen.rows && strcmp(row_of(&screen, row - 1, room), text == NULL ? "" : text + 1) == 0;
}

static bool is_taken(const char *nothing)
{
    struct termios settings;

    (void)nothing;
    tcgetattr(side, &settings);
    return (settings.c_lflag & (ICANON | ECHO)) == 0 && screen.alternate && screen.cursor_hidden;
}

static bool is_still(const char *nothing)
{
    int turn;

    (void)nothing;
    for (turn = 0; turn < SETTLING_MOST && take_output(SETTLED); turn++)
        continue;
    if (take_output(A_WHILE))
        fail("still", "the screen changes");
    return true;
}

static bool has_erased(const char *times)
{
    return screen.erased >= atoi(times);
}

static bool resize(const char *size)
{
    unsigned columns, rows;

    if (sscanf(size, "%u %u", &columns, &rows) != 2)
        fail("resize", size);
    set_size(columns, rows);
    return true;
}

static bool send_signal(const char *number)
{
    return child > 0 && kill(child, atoi(number)) == 0;
}

static bool is_as_before(void)
{
    struct termios settings;

    tcgetattr(side, &settings);
    return settings.c_iflag == settings_before.c_iflag && settings.c_oflag == settings_before.c_oflag &&
           settings.c_cflag == settings_before.c_cflag && settings.c_lflag == settings_before.c_lflag &&
           memcmp(settings.c_cc, settings_before.c_cc, sizeof settings.c_cc) == 0 && !screen.alternate && !screen.cursor_hidden &&
           !screen.reverse && screen.length == 0 && screen.entered == 1 && screen.left == 1;
}

static bool has_ended(const char *status)
{
    int end;

    if (child <= 0 || waitpid(child, &end, WNOHANG) != child)
        return false;
    child = 0;
    while (take_output(0) && screen.fault == NULL)
        continue;
    if (screen.fault != NULL || (WIFSIGNALED(end) ? 128 + WTERMSIG(end) : WEXITSTATUS(end)) != atoi(status))
        fail("ended", "with another status");
    if (!is_as_before())
        fail("ended", "the terminal is not as it was");
    return true;
}

static void follow(const char *name, const char *argument)
{
    static const struct {
        const char *name;
        bool (*is_true)(const char *);
    } commands[] = {
        {"type", type}, {"code", code}, {"screen", shows_file}, {"line", shows_line}, {"row", shows_row}, {"taken", is_taken},
        {"still", is_still}, {"resize", resize}, {"erased", has_erased}, {"signal", send_signal}, {"ended", has_ended},
    };
    const time_t began = time(NULL);
    size_t k = 0;

    while (k < sizeof commands / sizeof commands[0] && strcmp(name, commands[k].name) != 0)
        k++;
    if (k == sizeof commands / sizeof commands[0])
        fail(name, "no such command");
    while (!commands[k].is_true(argument)) {
        take_output(TURN);
        if (screen.fault != NULL || time(NULL) - began > PATIENCE)
            fail(name, argument);
    }
}

int main(int argc, char **argv)
{
    char line[200], *argument;

    if (argc < 4)
        return 2;
    start(argv + 1);
    while (fgets(line, sizeof line, stdin) != NULL) {
        line[strcspn(line, "\n")] = '\0';
        argument = strchr(line, ' ');
        if (argument != NULL)
            *argument++ = '\0';
        follow(line, argument == NULL ? "" : argument);
    }
    return 0;
}
