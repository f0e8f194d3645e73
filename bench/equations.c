/*
 * From a chain file to its equations. It trusts the files: bench/run gives it only such as the
 * entry took for well formed.
 */
#include "equations.h"

#include <stdbool.h>

#define MOST_EDGES 4096

#define BLOCK 512
#define RECORDS_IN_A_BLOCK 63

struct edge {
    uint8_t from, to;
    uint32_t weight;
};

struct chain {
    size_t states, edges;
    unsigned start;
    uint64_t goals;
    uint32_t denominators[MOST_STATES];
    struct edge edge[MOST_EDGES];
};

static uint64_t set_of(unsigned state)
{
    return UINT64_C(1) << state;
}

static bool holds(uint64_t set, unsigned state)
{
    return (set >> state & 1) != 0;
}

/* The file. */

/* A record of the kind whose first block is given. */
static const uint8_t *record(const struct bench_file *file, size_t first_block, size_t index)
{
    size_t block = first_block + index / RECORDS_IN_A_BLOCK;
    return file->bytes + block * BLOCK + 6 + index % RECORDS_IN_A_BLOCK * 8;
}

static size_t blocks_of(size_t records)
{
    return (records + RECORDS_IN_A_BLOCK - 1) / RECORDS_IN_A_BLOCK;
}

static void parse_states(const struct bench_file *file, struct chain *chain)
{
    chain->goals = 0;
    for (size_t i = 0; i < chain->states; i++) {
        const uint8_t *state = record(file, 1, i);
        chain->denominators[i] = bench_number_at(state);
        chain->goals |= (uint64_t)state[6] << i;
    }
}

static void parse_edges(const struct bench_file *file, struct chain *chain)
{
    size_t first_block = 1 + blocks_of(chain->states);
    for (size_t i = 0; i < chain->edges; i++) {
        const uint8_t *edge = record(file, first_block, i);
        chain->edge[i] = (struct edge){edge[0], edge[1], bench_number_at(edge + 4)};
    }
}

static void parse(const struct bench_file *file, struct chain *chain)
{
    const uint8_t *head = record(file, 0, 0);
    chain->states = head[0];
    chain->start = head[1];
    chain->edges = (size_t)head[2] | (size_t)head[3] << 8;
    parse_states(file, chain);
    parse_edges(file, chain);
}

/* The live states. */

/* The states of `seed` and all that `next` leads to from them, but nothing past `barrier`. */
static uint64_t reach(uint64_t seed, const uint64_t *next, uint64_t barrier)
{
    uint64_t set = seed, waiting = seed & ~barrier;
    while (waiting != 0) {
        int state = __builtin_ctzll(waiting);
        uint64_t fresh = next[state] & ~set;
        set |= fresh;
        waiting = (waiting & (waiting - 1)) | (fresh & ~barrier);
    }
    return set;
}

static uint64_t live_states(const struct chain *chain)
{
    uint64_t targets[MOST_STATES] = {0}, sources[MOST_STATES] = {0};
    for (size_t i = 0; i < chain->edges; i++) {
        struct edge edge = chain->edge[i];
        targets[edge.from] |= set_of(edge.to);
        sources[edge.to] |= set_of(edge.from);
    }
    uint64_t reached = reach(set_of(chain->start), targets, chain->goals);
    uint64_t with_path = reach(chain->goals, sources, 0);
    return reached & with_path & ~chain->goals;
}

/* The equations. */

/* Numbers the live states in turn and puts each one's denominator on the diagonal. */
static void place_states(const struct chain *chain, uint64_t live, size_t *place,
                         struct equations *equations)
{
    size_t size = (size_t)__builtin_popcountll(live), next = 0;
    equations->size = size;
    memset(equations->left, 0, size * size * sizeof equations->left[0]);
    memset(equations->right, 0, size * sizeof equations->right[0]);
    for (uint64_t rest = live; rest != 0; rest &= rest - 1) {
        int state = __builtin_ctzll(rest);
        place[state] = next;
        equations->left[next * size + next] = chain->denominators[state];
        next++;
    }
    equations->start = place[chain->start];
}

static void set_up(const struct chain *chain, uint64_t live, struct equations *equations)
{
    size_t place[MOST_STATES] = {0};
    place_states(chain, live, place, equations);
    for (size_t i = 0; i < chain->edges; i++) {
        struct edge edge = chain->edge[i];
        if (!holds(live, edge.from)) {
            continue;
        }
        size_t row = place[edge.from];
        if (holds(chain->goals, edge.to)) {
            equations->right[row] += edge.weight;
        } else if (holds(live, edge.to)) {
            equations->left[row * equations->size + place[edge.to]] -= edge.weight;
        }
    }
}

void prepare(const struct bench_file *file, struct equations *equations)
{
    static struct chain chain;
    parse(file, &chain);
    uint64_t live = live_states(&chain);
    if (!holds(live, chain.start)) {
        bench_fail(file->name, "the start is not live, and nothing is left to solve");
    }
    set_up(&chain, live, equations);
}
