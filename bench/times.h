/* The clocks of benchmarks, in nanoseconds, and the median of what was measured. */
#ifndef TIMES_H
#define TIMES_H

#include <stdlib.h>
#include <time.h>

/* By CLOCK_PROCESS_CPUTIME_ID what the process took of processors, by CLOCK_MONOTONIC the time. */
static inline double now_ns(clockid_t clock) {
    struct timespec at;
    clock_gettime(clock, &at);
    return at.tv_sec * 1e9 + at.tv_nsec;
}

static inline int by_size(const void *a, const void *b) {
    double x = *(const double *)a, y = *(const double *)b;
    return (x > y) - (x < y);
}

/* Sorts the numbers. */
static inline double median(double *numbers, size_t count) {
    qsort(numbers, count, sizeof *numbers, by_size);
    return numbers[count / 2];
}

#endif
