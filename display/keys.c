#include "keys.h"

#include "../common/numbers.h"

const char *const help_lines[HELP_LINES] = {
    "    m      a microcycle: the microword at MPC",
    "    i      a step: the instruction at PC, or the interrupt step if the request",
    "           line is up and ie is set; only where MPC is at fetch, that is at 0",
    "    f      microcycles to the next fetch point, 64 at most",
    "    r      the request line up or down",
    "    space  run by microcycles, or pause; m, i and f pause too",
    "    + -    run faster or slower",
    "    ?      these keys, or back",
    "    q      quit",
    "",
    "Words are hexadecimal; addresses of memory words and of microwords, immediates",
    "and counts are decimal. A star, and reverse video on a terminal, marks what the",
    "last move changed. A > stands before the word that PC, MAR or r1 leads to.",
    "",
    "A call that is refused changes nothing. The lines above the last one then have",
    "its number and what that means.",
};

void say(struct session *session, const char *first, const char *second)
{
    snprintf(session->message[0], MESSAGE_ROOM, "%s", first);
    snprintf(session->message[1], MESSAGE_ROOM, "%s", second);
}

void say_refused(struct session *session, const char *what, const char *consequence)
{
    avm_answer answer = session->bench.answer;
    char first[MESSAGE_ROOM], second[MESSAGE_ROOM];

    snprintf(first, sizeof first, "%s was refused with %u%s:", what, (unsigned)answer.number, consequence);
    if (answer.number == AVM_BAD_MICROWORD || answer.number == AVM_WALK_LEAVES || answer.number == AVM_WALK_NOT_BACK)
        snprintf(second, sizeof second, "word %u: %s", (unsigned)answer.at, meaning(answer.number));
    else
        snprintf(second, sizeof second, "%s", meaning(answer.number));
    say(session, first, second);
}

/* A run does not go on after a refused call. */
static void say_move_refused(struct session *session, const char *move)
{
    say_refused(session, move, " and changed nothing");
    session->running = false;
}

void microcycle(struct session *session)
{
    if (do_microcycle(&session->bench))
        say(session, session->bench.answer.steps.count == 1 ? "a microcycle, and back at fetch" : "a microcycle", "");
    else
        say_move_refused(session, "the microcycle");
}

/* The library would take a step from anywhere. But a step starts from PC as it is, and in the middle of an instruction a microprogram
   may have moved PC already. */
static void step(struct session *session)
{
    char words[MESSAGE_ROOM];

    if (session->bench.now.board.mpc != AVM_FETCH) {
        snprintf(words, sizeof words, "no step: MPC is at %u, in the middle of an instruction", (unsigned)session->bench.now.board.mpc);
        say(session, words, "f goes to the next fetch point, and from there a step can be done");
    } else if (do_step(&session->bench)) {
        say(session, "a step", "");
    } else {
        say_move_refused(session, "the step");
    }
}

static void to_fetch(struct session *session)
{
    char words[MESSAGE_ROOM];
    unsigned done;

    if (run_to_fetch(&session->bench, &done)) {
        snprintf(words, sizeof words, "%s fetch after %u microcycle%s", session->bench.now.board.mpc == AVM_FETCH ? "at" : "not at",
                 done, done == 1 ? "" : "s");
        say(session, words, "");
    } else {
        snprintf(words, sizeof words, "microcycle %u of these", done + 1);
        say_move_refused(session, words);
    }
}

static void run_or_pause(struct session *session)
{
    session->running = session->on_terminal && !session->running;
    say(session, session->on_terminal ? "" : "nothing runs by itself without a terminal", "");
}

static void change_speed(struct session *session, bool faster)
{
    if (faster && session->speed < SPEED_MOST)
        session->speed *= 2;
    if (!faster && session->speed > SPEED_LEAST)
        session->speed /= 2;
}

static void say_unknown(struct session *session, char key)
{
    char words[MESSAGE_ROOM];

    snprintf(words, sizeof words, key > ' ' && key <= '~' ? "no such key: %c" : "no such key: code %u", (unsigned char)key);
    say(session, words, "? shows the keys");
}

void press(struct session *session, char key)
{
    session->help = key == '?' && !session->help;
    session->running = session->running && key != 'm' && key != 'i' && key != 'f';
    switch (key) {
    case 'm': microcycle(session); break;
    case 'i': step(session); break;
    case 'f': to_fetch(session); break;
    case 'r': session->bench.request = !session->bench.request; break;
    case ' ': run_or_pause(session); break;
    case '+': change_speed(session, true); break;
    case '-': change_speed(session, false); break;
    case '?': break;
    case 'q': session->ended = true; break;
    default: say_unknown(session, key); break;
    }
}
