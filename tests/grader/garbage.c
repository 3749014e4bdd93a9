/* Gives the grader damaged files, many and always the same ones: garbage MICROPROGRAM IMAGE REQUESTS EXPECTED takes good files to damage.
   Each is either complained about in words or marked and recorded. A sanitizer says whether anything else happens. The last line of its
   output says how many were of each kind; the status is 0 if there were some of each and every complaint was in order. */
#include <stdlib.h>
#include <string.h>

#include "../../grader/marking.h"
#include "../../grader/recording.h"

enum { CASES = 4000, DAMAGES_MOST = 3, LONGEST_RUN = 2000 };

static uint64_t drawn = 20261115;

/* A number below the bound, which is not 0, by Marsaglia's xorshift generator. */
static size_t draw(size_t below)
{
    drawn ^= drawn << 13;
    drawn ^= drawn >> 7;
    drawn ^= drawn << 17;
    return (size_t)(drawn % below);
}

/* Room for a text. It is exactly as long as the text, so that reading beyond it is noticed, but never of no length. */
static char *room_for(size_t length)
{
    char *room = malloc(length == 0 ? 1 : length);

    if (room == NULL)
        abort();
    return room;
}

/* Puts bytes in the place of a stretch. */
static void replace(struct text *text, size_t from, size_t length, const char *bytes, size_t count)
{
    size_t after = text->length - from - length;
    char *room = room_for(from + count + after);

    memcpy(room, text->bytes, from);
    memcpy(room + from, bytes, count);
    memcpy(room + from + count, text->bytes + from + length, after);
    free(text->bytes);
    text->bytes = room;
    text->length = from + count + after;
}

static void damage(struct text *text)
{
    static const char *const pieces[] = {"", "\n", "\r", "\r\n", " ", "\t", "#", ":", "0x", "0", "9", "FFFFFFFFFFFFFFFF", "4294967295",
                                         "-", "from", "until", "fetch 1", "microcycle 1", "pc 1", "m63 1", "r31", "ireq 1", "words 16384",
                                         "register 31 7\n", ":00000001FF\n", "\xFF\x80", "both"};
    size_t from = draw(text->length + 1), length = draw(4) == 0 ? draw(text->length - from + 1) : draw(2);
    const char *piece = pieces[draw(sizeof pieces / sizeof pieces[0])];

    if (length > text->length - from)
        length = text->length - from;
    switch (draw(3)) {
    case 0: replace(text, from, length, piece, strlen(piece)); break;
    case 1: replace(text, from, length, "\0\1\x7F", draw(4)); break;
    default: replace(text, from, 0, text->bytes + draw(from + 1), length); break;
    }
}

static bool in_order(const struct complaint *complaint)
{
    const char *c;

    for (c = complaint->words; *c >= ' ' && *c <= '~'; c++)
        continue;
    return *c == '\0' && c != complaint->words && (complaint->status == BAD_FILE || complaint->status == PROGRAM_REFUSED);
}

/* True if the files were taken; they are then marked and recorded. */
static bool try_files(struct job *job, FILE *nowhere, bool *good)
{
    struct complaint complaint;

    if (!judge_job(job, &complaint)) {
        *good = *good && in_order(&complaint);
        return false;
    }
    if (job->requests.until.count <= LONGEST_RUN) {
        mark_in_list(nowhere, job, false, &complaint);
        mark_in_columns(nowhere, job, false, &complaint);
        *good = *good && (record(nowhere, job, true, &complaint) == ALL_RIGHT || in_order(&complaint));
    }
    return true;
}

/* A copy of the good files with some damage in one of them. */
static void draw_job(struct job *job, const struct job *good)
{
    size_t k, times;

    job->files = good->files;
    for (k = 0; k < good->files; k++) {
        job->texts[k] = good->texts[k];
        job->texts[k].bytes = memcpy(room_for(good->texts[k].length), good->texts[k].bytes, good->texts[k].length);
    }
    for (times = 1 + draw(DAMAGES_MOST), k = draw(good->files); times > 0; times--)
        damage(&job->texts[k]);
}

int main(int argc, char **argv)
{
    static struct job files, damaged;
    struct complaint complaint;
    FILE *nowhere = fopen("/dev/null", "w");
    unsigned taken = 0, k;
    bool good = true;

    if (argc != 1 + FILES || nowhere == NULL || !read_job(&files, (const char *const *)argv + 1, FILES, &complaint))
        return 1;
    for (k = 0; k < CASES; k++) {
        draw_job(&damaged, &files);
        taken += try_files(&damaged, nowhere, &good);
        free_job(&damaged);
    }
    free_job(&files);
    fclose(nowhere);
    printf("%u damaged files taken, %u refused\n", taken, CASES - taken);
    return good && taken > 0 && taken < CASES ? 0 : 1;
}
