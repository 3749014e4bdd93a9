#include "start.h"

#include "../common/image.h"

static void take_published(struct microprogram *program)
{
    for (program->count = 0; program->count < AVM_PROGRAM_MOST; program->count++)
        program->words[program->count] = avm_published(program->count);
}

/* A microprogram that the check refuses has been read all the same. */
static bool take_microprogram(struct microprogram *program, const char *name, bool unchecked, struct complaint *complaint)
{
    struct text text;
    bool good = read_text(name, &text, complaint) && read_microprogram(&text, program, complaint);

    free_text(&text);
    return good || (unchecked && complaint->status == PROGRAM_REFUSED);
}

static void say_checked(struct session *session)
{
    struct bench *bench = &session->bench;
    unsigned longest;
    char words[MESSAGE_ROOM];

    bench->answer = avm_check(bench->program.words, words_lent(&bench->program));
    longest = (unsigned)bench->answer.microcycles.count;
    snprintf(words, sizeof words, "the microprogram is back at fetch within %u microcycle%s", longest, longest == 1 ? "" : "s");
    if (bench->answer.number == AVM_DONE)
        say(session, words, "");
    else
        say_refused(session, "the microprogram", " by the check");
}

static bool take_image(struct bench *bench, const char *name, struct complaint *complaint)
{
    struct text text;
    bool good = read_text(name, &text, complaint) && read_image(&text, bench->now.memory, bench->m, complaint);

    free_text(&text);
    return good;
}

bool start_session(struct session *session, const struct options *options, struct complaint *complaint)
{
    struct bench *bench = &session->bench;

    session->program_name = options->published ? "the published microprogram" : options->files[0];
    session->image_name = options->files[options->count - 1];
    session->speed = SPEED_FIRST;
    bench->m = options->m;
    bench->now.board = options->start;
    if (options->published)
        take_published(&bench->program);
    else if (!take_microprogram(&bench->program, options->files[0], options->unchecked, complaint))
        return false;
    if (!take_image(bench, session->image_name, complaint))
        return false;
    bench->before = bench->now;
    say_checked(session);
    return true;
}
