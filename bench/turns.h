/* Included by the benchmarks that call the library and the twin in one process, after their `struct side` and `sides`, of which the first
 * is the library's and the second the twin's: jobs that both do in turn, nine times, after turns that aren't counted, and the medians. */
#ifndef TURNS_H
#define TURNS_H

enum { TURNS = 9 };

/* What is done; it gives a number that tells its answers. */
struct job {
    const char *name;
    unsigned long (*work)(const struct side *);
};

static unsigned long now(void)
{
    struct timespec time;

    clock_gettime(CLOCK_MONOTONIC, &time);
    return (unsigned long)time.tv_sec * 1000000000 + (unsigned long)time.tv_nsec;
}

static unsigned long timed(const struct job *job, int side, unsigned long times, unsigned long told[2])
{
    unsigned long began = now(), i;

    for (i = 0; i < times; i++)
        told[side] = job->work(&sides[side]);
    return now() - began;
}

static unsigned long median(unsigned long times[TURNS])
{
    int i, j;

    for (i = 1; i < TURNS; i++) {
        for (j = i; j > 0 && times[j - 1] > times[j]; j--) {
            unsigned long other = times[j];

            times[j] = times[j - 1];
            times[j - 1] = other;
        }
    }
    return times[TURNS / 2];
}

/* Does a job by both in turn, 20 ms or more at a time; gives the microseconds of each, and whether both answered the same. */
static int compare(const struct job *job, double us[2])
{
    unsigned long turns[2][TURNS], told[2], times = 1;
    int i, side;

    timed(job, 0, 1, told);
    while (timed(job, 1, times, told) < 20000000)
        times *= 2;
    for (i = 0; i < TURNS; i++) {
        for (side = 0; side < 2; side++)
            turns[side][i] = timed(job, side, times, told);
    }
    for (side = 0; side < 2; side++)
        us[side] = (double)median(turns[side]) / (double)times / 1000;
    if (told[0] != told[1])
        fprintf(stderr, "%s: the answers differ\n", job->name);
    return told[0] == told[1];
}

#endif
