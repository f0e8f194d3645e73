/*
 * What both programs of the benchmark share: they read a chain file, time calls, and write one line
 * a measurement for bench/table.py. To be included first: it asks the C library for its clock.
 */
#ifndef BENCH_H
#define BENCH_H

#define _POSIX_C_SOURCE 200809L

#include "egorstream.h"

#include <errno.h>
#include <stdio.h>
#include <stdlib.h>
#include <string.h>
#include <time.h>

/* A sample is as many calls as take this long, beside which reading the clock costs nothing. */
#define BENCH_SAMPLE_NS 1e6
/* Samples are taken for this long, but never fewer or more than the numbers below. */
#define BENCH_TOTAL_NS 500e6
#define BENCH_LEAST_SAMPLES 11
#define BENCH_MOST_SAMPLES 1001

/* What is timed: one call of `call` with `work`. */
typedef void bench_call(void *work);

struct bench_file {
    const char *name;
    size_t length;
    /* One byte more than the longest chain file, so that a longer one shows. */
    uint8_t bytes[EGORSTREAM_MOST_FILE_LENGTH + 1];
};

struct bench_timing {
    double median_ns;
    /* How far the middle half of the samples reaches, as a share of the median. */
    double spread;
    size_t calls;
};

static inline void bench_fail(const char *name, const char *why)
{
    fprintf(stderr, "%s: %s\n", name, why);
    exit(EXIT_FAILURE);
}

static inline void bench_read(struct bench_file *file, const char *name)
{
    FILE *stream = fopen(name, "rb");
    if (stream == NULL) {
        bench_fail(name, strerror(errno));
    }
    file->name = name;
    file->length = fread(file->bytes, 1, sizeof file->bytes, stream);
    if (ferror(stream) != 0) {
        bench_fail(name, "could not be read");
    }
    fclose(stream);
    if (file->length > EGORSTREAM_MOST_FILE_LENGTH) {
        bench_fail(name, "longer than any chain file");
    }
}

/* A little-endian number of 4 bytes, as files and answers have them. */
static inline uint32_t bench_number_at(const uint8_t *bytes)
{
    return (uint32_t)bytes[0] | (uint32_t)bytes[1] << 8 | (uint32_t)bytes[2] << 16 |
           (uint32_t)bytes[3] << 24;
}

/* The processor's time and not the wall's: other work on the machine would count in the latter. */
static inline double bench_now_ns(void)
{
    struct timespec now;
    if (clock_gettime(CLOCK_PROCESS_CPUTIME_ID, &now) != 0) {
        bench_fail("clock", strerror(errno));
    }
    return (double)now.tv_sec * 1e9 + (double)now.tv_nsec;
}

static inline double bench_sample_ns(bench_call *call, void *work, size_t calls)
{
    double begin = bench_now_ns();
    for (size_t i = 0; i < calls; i++) {
        call(work);
    }
    return bench_now_ns() - begin;
}

/* How many calls make a sample. The shorter of two decides: the first finds the caches cold. */
static inline size_t bench_calls_in_a_sample(bench_call *call, void *work)
{
    size_t calls = 1;
    while (bench_sample_ns(call, work, calls) < BENCH_SAMPLE_NS ||
           bench_sample_ns(call, work, calls) < BENCH_SAMPLE_NS) {
        calls *= 2;
    }
    return calls;
}

static inline int bench_ascending(const void *left, const void *right)
{
    double a = *(const double *)left, b = *(const double *)right;
    return (a > b) - (a < b);
}

static inline struct bench_timing bench_time(bench_call *call, void *work)
{
    static double samples[BENCH_MOST_SAMPLES];
    size_t calls = bench_calls_in_a_sample(call, work);
    size_t count = 0;
    double total = 0;
    while (count < BENCH_LEAST_SAMPLES || (count < BENCH_MOST_SAMPLES && total < BENCH_TOTAL_NS)) {
        double sample = bench_sample_ns(call, work, calls);
        samples[count++] = sample / (double)calls;
        total += sample;
    }
    qsort(samples, count, sizeof samples[0], bench_ascending);
    double median = samples[count / 2];
    return (struct bench_timing){
        .median_ns = median,
        .spread = (samples[3 * count / 4] - samples[count / 4]) / median,
        .calls = count * calls,
    };
}

/*
 * Writes a line for bench/table.py. The result is one word: a fraction, whose denominator may be
 * `2^POWER`, two as LOWER..UPPER, a decimal number, `refused:NUMBER`, or `-` where it stands on another
 * line.
 */
static inline void bench_line(const struct bench_file *file, const char *what, const char *result,
                              struct bench_timing timing)
{
    printf("%s %s %s %.1f %.4f %zu\n", file->name, what, result, timing.median_ns, timing.spread,
           timing.calls);
    /* A measurement takes a while, and the reader may be waiting. */
    fflush(stdout);
}

#endif
