/* The times of requests. */
#include "samples.h"

#include <stdio.h>
#include <stdlib.h>

void keep(struct samples *samples, int64_t began, int64_t ended) {
    if (samples->count == samples->room) {
        samples->room = samples->room ? 2 * samples->room : 4096;
        samples->took = realloc(samples->took, samples->room * sizeof *samples->took);
        if (!samples->took) exit(1);
    }
    if (!samples->count) samples->began = began;
    samples->ended = ended;
    samples->took[samples->count++] = ended - began;
}

double rate_of(const struct samples *samples) {
    return samples->count ? (double)samples->count * 1e9 / (double)(samples->ended - samples->began) : 0;
}

static int by_time(const void *left, const void *right) {
    int64_t a = *(const int64_t *)left, b = *(const int64_t *)right;
    return (a > b) - (a < b);
}

/* Returns the smallest time that this many of 100 times don't exceed. */
static double part(const struct samples *samples, size_t hundredths) {
    size_t rank = (samples->count * hundredths + 99) / 100;
    return (double)samples->took[rank ? rank - 1 : 0] / 1000;
}

void print_samples(struct samples *samples, double rate) {
    if (!samples->count) {
        fprintf(stderr, "nothing was measured\n");
        exit(1);
    }
    qsort(samples->took, samples->count, sizeof *samples->took, by_time);
    printf("%zu %.6f %.3f %.3f", samples->count, rate, part(samples, 50), part(samples, 99));
}
