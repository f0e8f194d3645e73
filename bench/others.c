/*
 * Times what a user would pick in place of the C entry, on the same chain files: FLINT's exact
 * solvers (built with -DWITH_FLINT) and LAPACK's solver in doubles (built with -DWITH_LAPACK).
 *
 *     others FILE ..                  two lines a solver and file, for bench/table.py
 *     others calls N dixon|size FILE  only makes N calls of FLINT, from the file's bytes on, for a profiler
 */
#include "equations.h"

#ifdef WITH_FLINT
#include <flint/fmpq.h>
#include <flint/fmpq_mat.h>
#include <flint/fmpz_mat.h>
#endif
#ifdef WITH_LAPACK
#include <lapacke.h>
#endif

/* Writes the two lines of a solver: from the file's bytes on, with the result, and alone. */
static void write_lines(const struct bench_file *file, const char *what, const char *chance,
                        struct bench_timing from_file, struct bench_timing alone)
{
    char solver[32];
    snprintf(solver, sizeof solver, "%s:solver", what);
    bench_line(file, what, chance, from_file);
    bench_line(file, solver, "-", alone);
}

#ifdef WITH_FLINT
/* FLINT: exact. */

struct flint_work {
    const struct bench_file *file;
    bench_call *solve;
    struct equations equations;
    fmpz_mat_t left, right;
    fmpq_t chance;
};

static void flint_begin(struct flint_work *work)
{
    slong size = (slong)work->equations.size;
    fmpz_mat_init(work->left, size, size);
    fmpz_mat_init(work->right, size, 1);
    for (slong row = 0; row < size; row++) {
        for (slong column = 0; column < size; column++) {
            fmpz_set_si(fmpz_mat_entry(work->left, row, column),
                        work->equations.left[row * size + column]);
        }
        fmpz_set_si(fmpz_mat_entry(work->right, row, 0), work->equations.right[row]);
    }
}

static void flint_end(struct flint_work *work)
{
    fmpz_mat_clear(work->right);
    fmpz_mat_clear(work->left);
}

static void flint_demand(int solved, const struct flint_work *work)
{
    if (solved == 0) {
        bench_fail(work->file->name, "FLINT finds the equations singular");
    }
}

/* Dixon's lifting, which suits large systems. */
static void flint_dixon(void *all)
{
    struct flint_work *work = all;
    fmpq_mat_t solution;
    fmpq_mat_init(solution, (slong)work->equations.size, 1);
    flint_demand(fmpq_mat_solve_fmpz_mat_dixon(solution, work->left, work->right), work);
    fmpq_set(work->chance, fmpq_mat_entry(solution, (slong)work->equations.start, 0));
    fmpq_mat_clear(solution);
}

/* The method that FLINT picks by the system's size: on a small one Dixon's is far too slow. */
static void flint_by_size(void *all)
{
    struct flint_work *work = all;
    fmpz_mat_t numerators;
    fmpz_t denominator;
    fmpz_mat_init(numerators, (slong)work->equations.size, 1);
    fmpz_init(denominator);
    flint_demand(fmpz_mat_solve(numerators, denominator, work->left, work->right), work);
    fmpq_set_fmpz_frac(work->chance,
                       fmpz_mat_entry(numerators, (slong)work->equations.start, 0), denominator);
    fmpz_clear(denominator);
    fmpz_mat_clear(numerators);
}

static void flint_from_file(void *all)
{
    struct flint_work *work = all;
    prepare(work->file, &work->equations);
    flint_begin(work);
    work->solve(work);
    flint_end(work);
}

static void time_flint(const struct bench_file *file, const char *what, bench_call *solve)
{
    static struct flint_work work;
    work.file = file;
    work.solve = solve;
    fmpq_init(work.chance);
    struct bench_timing from_file = bench_time(flint_from_file, &work);
    flint_begin(&work);
    struct bench_timing alone = bench_time(solve, &work);
    flint_end(&work);
    char *chance = fmpq_get_str(NULL, 10, work.chance);
    write_lines(file, what, chance, from_file, alone);
    flint_free(chance);
    fmpq_clear(work.chance);
}

static void only_call(const struct bench_file *file, const char *way, unsigned long calls)
{
    static struct flint_work work;
    work.file = file;
    work.solve = strcmp(way, "dixon") == 0 ? flint_dixon : flint_by_size;
    fmpq_init(work.chance);
    for (unsigned long call = 0; call < calls; call++) {
        flint_from_file(&work);
    }
    fmpq_clear(work.chance);
}
#endif

#ifdef WITH_LAPACK
/* LAPACK: in doubles, by Gauss's elimination with row exchanges. */

struct lapack_work {
    const struct bench_file *file;
    struct equations equations;
    /* The solver writes over both sides. */
    double left[MOST_STATES * MOST_STATES], right[MOST_STATES];
    lapack_int exchanges[MOST_STATES];
};

/* Column by column, as LAPACK keeps its tables: handed over row by row it would turn them first. */
static void lapack_solve(void *all)
{
    struct lapack_work *work = all;
    size_t size = work->equations.size;
    for (size_t row = 0; row < size; row++) {
        for (size_t column = 0; column < size; column++) {
            work->left[column * size + row] = (double)work->equations.left[row * size + column];
        }
        work->right[row] = (double)work->equations.right[row];
    }
    lapack_int order = (lapack_int)size;
    if (LAPACKE_dgesv(LAPACK_COL_MAJOR, order, 1, work->left, order, work->exchanges, work->right,
                      order) != 0) {
        bench_fail(work->file->name, "LAPACK finds the equations singular");
    }
}

static void lapack_from_file(void *all)
{
    struct lapack_work *work = all;
    prepare(work->file, &work->equations);
    lapack_solve(work);
}

static void time_lapack(const struct bench_file *file)
{
    static struct lapack_work work;
    work.file = file;
    struct bench_timing from_file = bench_time(lapack_from_file, &work);
    struct bench_timing alone = bench_time(lapack_solve, &work);
    char chance[32];
    snprintf(chance, sizeof chance, "%.17g", work.right[work.equations.start]);
    write_lines(file, "lapack", chance, from_file, alone);
}
#endif

int main(int argc, char **argv)
{
    static struct bench_file file;
    if (argc < 2) {
        fprintf(stderr, "usage: others FILE .. | others calls N dixon|size FILE\n");
        return EXIT_FAILURE;
    }
#ifdef WITH_FLINT
    if (argc == 5 && strcmp(argv[1], "calls") == 0) {
        bench_read(&file, argv[4]);
        only_call(&file, argv[3], strtoul(argv[2], NULL, 10));
        return EXIT_SUCCESS;
    }
#endif
    for (int i = 1; i < argc; i++) {
        bench_read(&file, argv[i]);
#ifdef WITH_FLINT
        time_flint(&file, "dixon", flint_dixon);
        time_flint(&file, "size", flint_by_size);
#endif
#ifdef WITH_LAPACK
        time_lapack(&file);
#endif
    }
    return EXIT_SUCCESS;
}
