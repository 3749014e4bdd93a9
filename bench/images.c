/* Images in one process: the bytes of text a second of avm_read and avm_write, and whether twice the text takes twice the time; see
   bench/README.md. */
#include <stdbool.h>
#include <stdio.h>
#include <string.h>

#include "../include/schoonleech.h"
#include "timing.h"

static const double shortest_repetition = 0.01; /* seconds: long against what one reading of the clock costs */
static const double lowest_ratio = 1.5, highest_ratio = 2.7;

/* A call that is accepted, again and again. */
struct job {
    bool writes;
    uint32_t memory[AVM_WORDS_MOST];
    uint8_t text[AVM_TEXT_MOST];
    size_t m, bytes;
};

static bool do_once(struct job *job)
{
    avm_answer answer = job->writes ? avm_write(job->memory, job->m, job->text, job->bytes)
                                    : avm_read(job->memory, job->m, job->text, job->bytes);

    return answer.number == AVM_DONE && answer.at == (job->writes ? job->bytes : 0);
}

/* A memory with every byte in it, and its text, which is written before it is read. */
static void fill_image(struct job *job, size_t m)
{
    size_t word;

    job->m = m;
    job->bytes = AVM_WRITTEN(m);
    for (word = 0; word < m; word++)
        job->memory[word] = (uint32_t)word * 0x9E3779B1u;
    avm_write(job->memory, m, job->text, job->bytes);
}

/* Lines as short as there can be: records of no data, a few of them with CR LF, so that with the end record they have that many bytes. */
static void fill_short_lines(struct job *job, size_t bytes)
{
    size_t longer = bytes % 12, place = 0;

    for (; longer > 0; longer--, place += 13)
        memcpy(job->text + place, ":0000000000\r\n", 13);
    for (; place + 12 < bytes; place += 12)
        memcpy(job->text + place, ":0000000000\n", 12);
    memcpy(job->text + place, ":00000001FF\n", 12);
    job->m = AVM_WORDS_MOST;
    job->bytes = bytes;
}

/* Each pair of jobs is the same work on n and on 2n bytes of text, give or take an end record. */
static void prepare_reading(struct job *jobs)
{
    fill_image(&jobs[0], AVM_WORDS_MOST / 2);
    fill_image(&jobs[1], AVM_WORDS_MOST);
}

static void prepare_writing(struct job *jobs)
{
    prepare_reading(jobs);
    jobs[0].writes = jobs[1].writes = true;
}

static void prepare_short_lines(struct job *jobs)
{
    fill_short_lines(&jobs[0], AVM_TEXT_MOST / 2);
    fill_short_lines(&jobs[1], AVM_TEXT_MOST);
}

static const struct row {
    const char *name;
    void (*prepare)(struct job *jobs);
} rows[] = {
    {"read images of 8192 and 16384 words", prepare_reading},
    {"write images of 8192 and 16384 words", prepare_writing},
    {"read lines without data", prepare_short_lines},
};

static double seconds(const struct row *row, struct job *job, unsigned long calls)
{
    double start = processor_seconds();
    unsigned long k;

    for (k = 0; k < calls; k++)
        if (!do_once(job))
            fail(row->name, "a call is not answered as it should be");
    return processor_seconds() - start;
}

/* Both lengths in turn, so that what disturbs the machine for a while disturbs both. */
static void measure(const struct row *row, struct job *jobs)
{
    double once[REPETITIONS], twice[REPETITIONS], ratio[REPETITIONS], middle;
    unsigned long calls = 1;
    int k;

    while (seconds(row, &jobs[0], calls) < shortest_repetition)
        calls *= 2;
    for (k = 0; k < REPETITIONS; k++) {
        once[k] = seconds(row, &jobs[0], calls);
        twice[k] = seconds(row, &jobs[1], calls);
        ratio[k] = twice[k] / once[k];
    }
    middle = median(ratio, REPETITIONS);
    printf("%-38s %8zu %8.1f %8zu %8.1f %7.2f  (%.2f to %.2f)\n", row->name, jobs[0].bytes,
           (double)jobs[0].bytes * (double)calls / median(once, REPETITIONS) / 1e6, jobs[1].bytes,
           (double)jobs[1].bytes * (double)calls / median(twice, REPETITIONS) / 1e6, middle, ratio[0], ratio[REPETITIONS - 1]);
    if (middle < lowest_ratio || middle > highest_ratio)
        fail(row->name, "twice the text does not take about twice the time");
}

int main(void)
{
    static struct job jobs[2];
    const struct row *row;

    printf("%-38s %8s %8s %8s %8s   time of the longer / of the shorter\n", "bytes of text, and millions a second", "bytes", "MB/s",
           "bytes", "MB/s");
    for (row = rows; row < rows + sizeof rows / sizeof rows[0]; row++) {
        memset(jobs, 0, sizeof jobs);
        row->prepare(jobs);
        measure(row, jobs);
    }
    return 0;
}
