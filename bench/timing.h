/* What both benchmarks share: processor time, and medians of rounds in turn. */
#ifndef TIMING_H
#define TIMING_H

#define _POSIX_C_SOURCE 200809L /* clock_gettime */
#include <math.h>
#include <stdio.h>
#include <stdlib.h>
#include <time.h>

enum { ROUNDS = 301 };

static inline double nanoseconds(void)
{
    struct timespec t;
    clock_gettime(CLOCK_PROCESS_CPUTIME_ID, &t); /* what else runs on the machine takes no part */
    return (double)t.tv_sec * 1e9 + (double)t.tv_nsec;
}

static inline int ascending(const void *a, const void *b)
{
    double x = *(const double *)a, y = *(const double *)b;
    return (x > y) - (x < y);
}

static inline double median(double *samples, unsigned count)
{
    qsort(samples, count, sizeof *samples, ascending);
    return samples[count / 2];
}

/* The medians of both, and of the ratios within a round. */
struct comparison {
    double intake, plain, ratio;
};

/* A sample of one of the two, in nanoseconds of whatever is counted. */
typedef double sampler(const void *what, int plain);

static inline struct comparison compare(sampler *sample, const void *what, unsigned rounds)
{
    double intake[ROUNDS], plain[ROUNDS], ratios[ROUNDS];
    for (unsigned i = 0; i < rounds; i++) {
        if (i % 2 == 0) /* each goes first in half of the rounds */
            intake[i] = sample(what, 0);
        plain[i] = sample(what, 1);
        if (i % 2 == 1)
            intake[i] = sample(what, 0);
        ratios[i] = intake[i] / plain[i];
    }
    return (struct comparison){median(intake, rounds), median(plain, rounds), median(ratios, rounds)};
}

#endif
