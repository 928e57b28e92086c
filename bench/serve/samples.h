/* The times of requests. */
#ifndef SAMPLES_H
#define SAMPLES_H
#include <stddef.h>
#include <stdint.h>

/* The time of each request, when the first began and when the last ended, in nanoseconds. */
struct samples {
    int64_t *took;
    size_t count, room;
    int64_t began, ended;
};

void keep(struct samples *samples, int64_t began, int64_t ended);

/* Returns the rate per second, for requests that were made one after another. */
double rate_of(const struct samples *samples);

/* Prints the number of requests, the rate per second, and the microseconds of the median and of the
   99th percentile. */
void print_samples(struct samples *samples, double rate);

#endif
