/* The equations of a chain file, which FLINT and LAPACK are given to solve. */
#ifndef EQUATIONS_H
#define EQUATIONS_H

#include "bench.h"

#define MOST_STATES 64

/*
 * The equations of the live states: denominator times x of a state, less weight times x of each
 * live target, is the sum of the weights to goals. Row by row, a row and a column a live state.
 */
struct equations {
    size_t size;
    size_t start;
    int64_t left[MOST_STATES * MOST_STATES];
    int64_t right[MOST_STATES];
};

/* From the file's bytes to the equations: what each library needs before it can solve. */
void prepare(const struct bench_file *file, struct equations *equations);

#endif
