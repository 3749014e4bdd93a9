#include "job.h"

#include "../common/image.h"

bool judge_job(struct job *job, struct complaint *complaint)
{
    struct board *start = &job->requests.start;

    return read_microprogram(&job->texts[MICROPROGRAM], &job->program, complaint) &&
           read_requests(&job->texts[REQUESTS], &job->requests, complaint) &&
           read_image(&job->texts[IMAGE], start->memory, start->m, complaint) &&
           (job->files < FILES || read_expected(&job->texts[EXPECTED], start->m, &job->expected, complaint));
}

bool read_job(struct job *job, const char *const names[FILES], size_t files, struct complaint *complaint)
{
    for (job->files = 0; job->files < files;) {
        size_t k = job->files++;

        if (!read_text(names[k], &job->texts[k], complaint))
            return false;
    }
    return judge_job(job, complaint);
}

void free_job(struct job *job)
{
    while (job->files > 0)
        free_text(&job->texts[--job->files]);
}
