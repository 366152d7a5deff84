#define _POSIX_C_SOURCE 200809L
#include "measure.h"

#include <stdio.h>
#include <stdlib.h>
#include <string.h>
#include <time.h>

enum { MOST_ROWS = 80, MOST_JOBS = 112 };

struct row {
    char name[80];
    work *work;
    unsigned units;
    const struct job *jobs; /* the calls take turns on these */
    unsigned job_count;
    unsigned long calls[SIDES]; /* in a round */
    double least[SIDES];        /* seconds for one call, in the fastest round */
};

uint8_t written[SIDES][BUFFER];
static struct row rows[MOST_ROWS];
static unsigned row_count;
static struct job jobs[MOST_JOBS];
static unsigned job_count;
static uint64_t sum;

/* Processor time of this process: the time that others run is not in it. */
static double now(void)
{
    struct timespec t;
    clock_gettime(CLOCK_PROCESS_CPUTIME_ID, &t);
    return (double)t.tv_sec + 1e-9 * (double)t.tv_nsec;
}

static double time_calls(const struct row *row, enum side side, unsigned long calls)
{
    double start = now();
    for (unsigned long i = 0; i < calls; i++)
        sum += row->work(side, &row->jobs[i % row->job_count]);
    return now() - start;
}

static void compare_answers(const struct row *row, const struct job *each)
{
    uint64_t answer[SIDES];
    memset(written, 0x55, sizeof written);
    for (unsigned side = 0; side < SIDES; side++)
        answer[side] = row->work((enum side)side, each);
    for (unsigned side = 0; side < LIBRARY; side++)
        if (answer[side] != answer[LIBRARY] || memcmp(written[side], written[LIBRARY], BUFFER) != 0) {
            printf("%s: the library and %s C give different answers\n", row->name, side == PLAIN ? "plain" : "tuned");
            exit(1);
        }
}

void add_job(void)
{
    if (job_count == MOST_JOBS) {
        printf("more than %d jobs\n", MOST_JOBS);
        exit(1);
    }
    struct row *row = &rows[row_count - 1];
    jobs[job_count] = job;
    compare_answers(row, &jobs[job_count++]);
    row->job_count++;
}

void add_row(const char *name, work *work, unsigned units)
{
    if (row_count == MOST_ROWS) {
        printf("more than %d rows\n", MOST_ROWS);
        exit(1);
    }
    struct row *row = &rows[row_count++];
    snprintf(row->name, sizeof row->name, "%s", name);
    row->work = work;
    row->units = units;
    row->jobs = &jobs[job_count];
    add_job();
}

/* A round has as many calls as take some 2 milliseconds; at least one on each job. */
static void set_calls(struct row *row, enum side side)
{
    unsigned long calls = row->job_count;
    while (time_calls(row, side, calls) < 0.002)
        calls *= 2;
    row->calls[side] = calls;
    row->least[side] = 1e9;
}

static void measure_round(struct row *row)
{
    for (unsigned side = 0; side < SIDES; side++) {
        double calls = (double)row->calls[side] * row->units;
        double each = time_calls(row, (enum side)side, row->calls[side]) / calls;
        if (each < row->least[side])
            row->least[side] = each;
    }
}

static void print_rows(void)
{
    printf("| %-56s | plain C, us | tuned C, us | library, us | to plain | to tuned |\n", "call");
    printf("|---|---|---|---|---|---|\n");
    for (unsigned r = 0; r < row_count; r++) {
        const double *least = rows[r].least;
        printf("| %-56s | %11.2f | %11.2f | %11.2f | %8.2g | %8.2g |\n", rows[r].name, 1e6 * least[PLAIN], 1e6 * least[TUNED],
               1e6 * least[LIBRARY], least[LIBRARY] / least[PLAIN], least[LIBRARY] / least[TUNED]);
    }
}

/* Each round goes through all rows and sides, so the rounds of a row are spread over the whole time. */
uint64_t measure_rows(void)
{
    for (unsigned r = 0; r < row_count; r++)
        for (unsigned side = 0; side < SIDES; side++)
            set_calls(&rows[r], (enum side)side);
    for (unsigned round = 0; round < ROUNDS; round++)
        for (unsigned r = 0; r < row_count; r++)
            measure_round(&rows[r]);
    print_rows();
    return sum;
}
