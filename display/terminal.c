#define _POSIX_C_SOURCE 200809L

#include "terminal.h"

#include <errno.h>
#include <signal.h>
#include <stdio.h>
#include <sys/ioctl.h>
#include <sys/select.h>
#include <termios.h>
#include <time.h>
#include <unistd.h>

static struct termios settings_before;
static sigset_t mask_before;
static volatile sig_atomic_t ending, resized; /* ending is the signal's number */

static void catch_signal(int number)
{
    if (number == SIGWINCH)
        resized = 1;
    else
        ending = number;
}

/* The signals are let in while the display waits and at no other time, so that none is lost between a look at the flags and the wait. */
static void catch_signals(void)
{
    static const int numbers[] = {SIGINT, SIGTERM, SIGHUP, SIGQUIT, SIGWINCH};
    struct sigaction action = {0};
    sigset_t mask;
    size_t k;

    sigemptyset(&mask);
    sigemptyset(&action.sa_mask);
    action.sa_handler = catch_signal;
    for (k = 0; k < sizeof numbers / sizeof numbers[0]; k++) {
        sigaddset(&mask, numbers[k]);
        sigaction(numbers[k], &action, NULL);
    }
    sigprocmask(SIG_BLOCK, &mask, &mask_before);
}

/* A stopped display would leave its screen to the shell, and stopped output would keep it from ending: neither key does that here. */
bool take_terminal(void)
{
    struct termios settings;

    if (isatty(STDOUT_FILENO) != 1 || tcgetattr(STDIN_FILENO, &settings_before) != 0)
        return false;
    settings = settings_before;
    settings.c_lflag &= ~(tcflag_t)(ICANON | ECHO);
    settings.c_iflag &= ~(tcflag_t)IXON;
    settings.c_cc[VMIN] = 1;
    settings.c_cc[VTIME] = 0;
    settings.c_cc[VSUSP] = _POSIX_VDISABLE;
    catch_signals();
    tcsetattr(STDIN_FILENO, TCSANOW, &settings);
    fputs("\033[?1049h\033[?25l\033[2J", stdout); /* alternate screen, no cursor, empty */
    return true;
}

void give_terminal_back(void)
{
    fputs("\033[0m\033[?25h\033[?1049l", stdout);
    fflush(stdout);
    tcsetattr(STDIN_FILENO, TCSANOW, &settings_before);
    if (ending == 0)
        return;
    signal(ending, SIG_DFL);
    raise(ending);
    sigprocmask(SIG_SETMASK, &mask_before, NULL);
}

struct size terminal_size(void)
{
    struct size size = {80, 24}; /* where a terminal does not say */
    struct winsize told;

    if (ioctl(STDOUT_FILENO, TIOCGWINSZ, &told) == 0 && told.ws_col > 0 && told.ws_row > 0) {
        size.columns = told.ws_col;
        size.rows = told.ws_row;
    }
    return size;
}

static int wait_for_input(double seconds)
{
    double wait = seconds < 0 ? 0 : seconds;
    struct timespec time;
    fd_set input;

    time.tv_sec = (time_t)wait;
    time.tv_nsec = (long)((wait - (double)time.tv_sec) * 1e9);
    FD_ZERO(&input);
    FD_SET(STDIN_FILENO, &input);
    return pselect(STDIN_FILENO + 1, &input, NULL, NULL, seconds < 0 ? NULL : &time, &mask_before);
}

enum event wait_for_event(double seconds, char *key)
{
    int ready = wait_for_input(seconds);

    if (ending != 0 || (ready < 0 && errno != EINTR))
        return ENDED;
    if (resized || ready < 0) {
        resized = 0;
        return RESIZED;
    }
    if (ready == 0)
        return TIME;
    return read(STDIN_FILENO, key, 1) == 1 ? KEY : ENDED;
}
