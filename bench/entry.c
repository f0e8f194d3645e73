/*
 * Times the C entries on chain files: the chance exactly, in bounds and near, the step list, an order, the chance within the most steps, and the
 * writing of the file again.
 *
 *     entry FILE ..                          seven lines a file, for bench/table.py
 *     entry calls N exact|bounds|near FILE   only makes N calls, for a profiler
 */
#include "bench.h"

#include <inttypes.h>

struct request {
    const struct bench_file *file;
    uint32_t mode;
    uint32_t number;
    uint8_t answer[EGORSTREAM_ANSWER_LENGTH];
};

static void call_entry(void *work)
{
    struct request *request = work;
    request->number = egorstream_chance(request->file->bytes, request->file->length, request->mode,
                                        request->answer, sizeof request->answer);
}

static void write_result(const struct request *request, char *result, size_t room)
{
    const uint8_t *answer = request->answer;
    if (request->number != EGORSTREAM_ANSWERED) {
        snprintf(result, room, "refused:%" PRIu32, request->number);
        return;
    }
    snprintf(result, room, "%" PRIu32 "/%" PRIu32 "..%" PRIu32 "/%" PRIu32,
             bench_number_at(answer), bench_number_at(answer + 4), bench_number_at(answer + 8),
             bench_number_at(answer + 12));
}

static void time_mode(const struct bench_file *file, const char *what, uint32_t mode)
{
    struct request request = {.file = file, .mode = mode};
    struct bench_timing timing = bench_time(call_entry, &request);
    /* The benchmark's chains are well formed: every refusal but this one is a mistake. */
    if (request.number != EGORSTREAM_ANSWERED && request.number != EGORSTREAM_NO_FIT) {
        fprintf(stderr, "%s: the entry refused a chain of the benchmark: %" PRIu32 "\n", file->name,
                request.number);
        exit(EXIT_FAILURE);
    }
    char result[64];
    write_result(&request, result, sizeof result);
    bench_line(file, what, result, timing);
}

struct nearing {
    const struct bench_file *file;
    struct egorstream_nearness nearly;
};

static void call_near(void *work)
{
    struct nearing *nearing = work;
    nearing->nearly = egorstream_near(nearing->file->bytes, nearing->file->length);
}

static void time_near(const struct bench_file *file)
{
    struct nearing nearing = {.file = file};
    struct bench_timing timing = bench_time(call_near, &nearing);
    if (nearing.nearly.number != EGORSTREAM_ANSWERED) {
        bench_fail(file->name, "the near chance is refused");
    }
    const struct egorstream_around *near = &nearing.nearly.near;
    char result[128];
    snprintf(result, sizeof result, "%" PRIu64 "/2^%" PRIu32 "..%" PRIu64 "/2^%" PRIu32, near->lower, near->twos,
             near->upper, near->twos);
    bench_line(file, "near", result, timing);
}

/* A step list, with room for every chain. */
struct listing {
    const struct bench_file *file;
    struct egorstream_step list[EGORSTREAM_MOST_STATES];
    struct egorstream_stepped stepped;
};

static void call_steps(void *work)
{
    struct listing *listing = work;
    listing->stepped = egorstream_steps(listing->file->bytes, listing->file->length, listing->list,
                                        EGORSTREAM_MOST_STATES);
}

static void time_steps(const struct bench_file *file)
{
    static struct listing listing;
    listing.file = file;
    struct bench_timing timing = bench_time(call_steps, &listing);
    const struct egorstream_stepped *said = &listing.stepped;
    char result[64];
    if (said->number != EGORSTREAM_ANSWERED) {
        snprintf(result, sizeof result, "refused:%" PRIu32, said->number);
    } else {
        snprintf(result, sizeof result, "%" PRIu64 "/%" PRIu64, said->numerator, said->denominator);
    }
    bench_line(file, "steps", result, timing);
}

/* An order that is chosen. */
struct choosing {
    const struct bench_file *file;
    uint64_t list[EGORSTREAM_MOST_STATES];
    struct egorstream_ordered ordered;
};

static void call_order(void *work)
{
    struct choosing *choosing = work;
    choosing->ordered = egorstream_order(choosing->file->bytes, choosing->file->length, choosing->list,
                                         choosing->file->bytes[6]);
}

static void time_order(const struct bench_file *file)
{
    static struct choosing choosing;
    choosing.file = file;
    struct bench_timing timing = bench_time(call_order, &choosing);
    if (choosing.ordered.number != EGORSTREAM_ANSWERED) {
        bench_fail(file->name, "no order is chosen");
    }
    bench_line(file, "order", "-", timing);
}

struct retries {
    const struct bench_file *file;
    struct egorstream_reached reached;
};

static void call_within(void *work)
{
    struct retries *retries = work;
    retries->reached = egorstream_within(retries->file->bytes, retries->file->length, EGORSTREAM_MOST_STEPS);
}

static void time_within(const struct bench_file *file)
{
    struct retries retries = {.file = file};
    struct bench_timing timing = bench_time(call_within, &retries);
    if (retries.reached.number != EGORSTREAM_ANSWERED) {
        bench_fail(file->name, "the chance within the most steps is refused");
    }
    char result[64];
    snprintf(result, sizeof result, "%" PRIu64 "/%" PRIu64, retries.reached.parts, EGORSTREAM_PARTS);
    bench_line(file, "within", result, timing);
}

/* The tables of a file, for the writer. It trusts the file, which the entry took for well formed. */
struct tables {
    const struct bench_file *file;
    uint64_t states, start, goals, edge_count;
    uint64_t denominators[64], order[64], rewards[64], edges[4 * 4096];
    uint8_t buffer[EGORSTREAM_MOST_FILE_LENGTH];
    struct egorstream_written written;
};

/* A record of the kind whose first block is given: 63 records of 8 bytes a block, from byte 6 on. */
static const uint8_t *record(const struct bench_file *file, size_t first_block, size_t index)
{
    return file->bytes + (first_block + index / 63) * 512 + 6 + index % 63 * 8;
}

static void read_tables(const struct bench_file *file, struct tables *tables)
{
    const uint8_t *head = record(file, 0, 0);
    tables->file = file;
    tables->states = head[0];
    tables->start = head[1];
    tables->edge_count = head[2] | (uint64_t)head[3] << 8;
    tables->goals = 0;
    for (size_t i = 0; i < tables->states; i++) {
        const uint8_t *state = record(file, 1, i);
        tables->denominators[i] = bench_number_at(state);
        tables->rewards[i] = state[4] | (uint64_t)state[5] << 8;
        tables->goals |= (uint64_t)state[6] << i;
        tables->order[i] = state[7];
    }
    for (size_t i = 0; i < tables->edge_count; i++) {
        const uint8_t *edge = record(file, 1 + (tables->states + 62) / 63, i);
        tables->edges[4 * i] = edge[0];
        tables->edges[4 * i + 1] = edge[1];
        tables->edges[4 * i + 2] = bench_number_at(edge + 4);
        tables->edges[4 * i + 3] = edge[2] | (uint64_t)edge[3] << 8;
    }
}

static void call_write(void *work)
{
    struct tables *t = work;
    t->written = egorstream_write(t->states, t->start, t->goals, t->denominators, t->states, t->edges,
                                  4 * t->edge_count, t->order, t->states, t->rewards, t->states, t->buffer,
                                  sizeof t->buffer);
}

static void time_write(const struct bench_file *file)
{
    static struct tables tables;
    read_tables(file, &tables);
    struct bench_timing timing = bench_time(call_write, &tables);
    if (tables.written.number != EGORSTREAM_ANSWERED || tables.written.length != file->length ||
        memcmp(tables.buffer, file->bytes, file->length) != 0) {
        bench_fail(file->name, "the writer does not write the file again as it is");
    }
    bench_line(file, "write", "-", timing);
}

static void repeat(bench_call *call, void *work, unsigned long calls)
{
    for (unsigned long i = 0; i < calls; i++) {
        call(work);
    }
}

static void only_call(const struct bench_file *file, const char *way, unsigned long calls)
{
    struct request exact = {.file = file, .mode = EGORSTREAM_MODE_EXACT};
    struct request bounds = {.file = file, .mode = EGORSTREAM_MODE_BOUNDS};
    struct nearing nearing = {.file = file};
    if (strcmp(way, "exact") == 0) {
        repeat(call_entry, &exact, calls);
    } else if (strcmp(way, "bounds") == 0) {
        repeat(call_entry, &bounds, calls);
    } else if (strcmp(way, "near") == 0) {
        repeat(call_near, &nearing, calls);
    } else {
        bench_fail(way, "neither exact nor bounds nor near");
    }
}

int main(int argc, char **argv)
{
    static struct bench_file file;
    if (argc < 2) {
        fprintf(stderr, "usage: entry FILE .. | entry calls N exact|bounds|near FILE\n");
        return EXIT_FAILURE;
    }
    if (argc == 5 && strcmp(argv[1], "calls") == 0) {
        bench_read(&file, argv[4]);
        only_call(&file, argv[3], strtoul(argv[2], NULL, 10));
        return EXIT_SUCCESS;
    }
    for (int i = 1; i < argc; i++) {
        bench_read(&file, argv[i]);
        time_mode(&file, "exact", EGORSTREAM_MODE_EXACT);
        time_mode(&file, "bounds", EGORSTREAM_MODE_BOUNDS);
        time_near(&file);
        time_steps(&file);
        time_order(&file);
        time_within(&file);
        time_write(&file);
    }
    return EXIT_SUCCESS;
}
