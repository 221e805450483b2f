/* Elapsed time, and the lines that are printed: `CASE VALUE`, where the value is nanoseconds, bytes or a rate. For a mean, it is
 * `CASE VALUE COUNT`. */
#ifndef CLOCK_H
#define CLOCK_H
#include <stdint.h>
#include <stdio.h>
#include <stdlib.h>
#include <time.h>

/* Returns the time in seconds. */
static inline double now(void) {
    struct timespec time;
    clock_gettime(CLOCK_MONOTONIC, &time);
    return time.tv_sec + time.tv_nsec * 1e-9;
}

static inline void say_value(const char *name, double value) { printf("%s %.3f\n", name, value); }

/* Prints the nanoseconds for each of `count`, which took this many seconds in total. */
static inline void say_spent(const char *name, double seconds, uint64_t count) {
    printf("%s %.3f %llu\n", name, seconds / count * 1e9, (unsigned long long)count);
}

/* Prints the nanoseconds for each of `count` since `start`. */
static inline void say_each(const char *name, double start, uint64_t count) { say_spent(name, now() - start, count); }

/* Prints how many there were per second. */
static inline void say_rate(const char *name, uint64_t count, double seconds) { say_value(name, count / seconds); }

static inline int by_size(const void *left, const void *right) {
    double a = *(const double *)left, b = *(const double *)right;
    return (a > b) - (a < b);
}

static inline void sort_times(double *times, size_t count) { qsort(times, count, sizeof *times, by_size); }

/* Prints the median, the 99th percentile and the maximum of some times. */
static inline void say_spread(const char *what, double *times, size_t count) {
    char name[40];
    sort_times(times, count);
    snprintf(name, sizeof name, "%s-50", what);
    say_value(name, times[count / 2]);
    snprintf(name, sizeof name, "%s-99", what);
    say_value(name, times[count - (count < 200 ? 1 : count / 100)]);
    snprintf(name, sizeof name, "%s-max", what);
    say_value(name, times[count - 1]);
}
#endif
