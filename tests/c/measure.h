/*
 * What the programs that measure share: the clock, the order of times, and a bar over medians.
 */
#ifndef MEASURE_H
#define MEASURE_H

#include <stdio.h>
#include <time.h>

static double now(void)
{
    struct timespec time;

    clock_gettime(CLOCK_MONOTONIC, &time);
    return (double)time.tv_sec + (double)time.tv_nsec * 1e-9;
}

static int by_size(const void *one, const void *other)
{
    double a = *(const double *)one, b = *(const double *)other;

    return (a > b) - (a < b);
}

/* Tells how a bar over the longest median stands; 0 where it is missed. */
static inline int tell_worst(const char *what, double worst, double most, int judged)
{
    if (!judged) {
        printf("not judged: what an emulator runs, and what few turns tell, is no measurement\n");
        return 1;
    }
    printf("%s: %s under %.0f ms (the longest median is %.1f us)\n", worst < most ? "holds" : "MISSED", what, most * 1e3,
           worst * 1e6);
    return worst < most;
}

#endif
