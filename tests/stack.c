/* How much stack each call takes: it is made in a thread whose stack was painted, once for a chain of three states and once for one of 64 whose file is
 * long, and the paint that is gone is counted. Fails where a call is refused that should answer, or takes more than a thread of 256 KiB can give. */
#define _POSIX_C_SOURCE 200809L
#include <egorstream.h>
#include <pthread.h>
#include <stdint.h>
#include <stdio.h>
#include <stdlib.h>
#include <string.h>

enum { STACK = 1 << 20, PAINT = 0xa5, MOST = 240 * 1024, STATES = 64, EDGES = STATES * STATES };

struct chain {
    uint64_t states, goals;
    uint64_t denominators[STATES], edges[4 * EDGES], order[STATES], rewards[STATES];
    size_t edges_length;
    uint8_t file[EGORSTREAM_MOST_FILE_LENGTH], made[EGORSTREAM_MOST_FILE_LENGTH];
    size_t file_length;
    uint8_t text[EGORSTREAM_SHOWN_ROOM];
    size_t text_length;
    uint64_t list[STATES];
    struct egorstream_step steps[STATES];
    uint8_t shares[4 * (1 + STATES)];
};

static struct chain small, large;

/* Every state leads to every state, but for the last two, which keep what they get: a goal and a trap. */
static void fill(struct chain *c, uint64_t states) {
    size_t e = 0;
    c->states = states;
    c->goals = (uint64_t)1 << (states - 2);
    for (uint64_t from = 0; from < states; from++) {
        int keeps = from >= states - 2;
        c->denominators[from] = keeps ? 1 : states;
        c->order[from] = from;
        for (uint64_t to = 0; to < states; to++) {
            if (keeps && to != from)
                continue;
            c->edges[e++] = from;
            c->edges[e++] = to;
            c->edges[e++] = 1;
            c->edges[e++] = 0;
        }
    }
    c->edges_length = e;
}

static uint32_t write_file(struct chain *c) {
    struct egorstream_written w =
        egorstream_write(c->states, 0, c->goals, c->denominators, c->states, c->edges, c->edges_length, c->order, c->states,
                         c->rewards, c->states, c->file, sizeof c->file);
    c->file_length = w.length;
    return w.number;
}

static uint32_t chance(struct chain *c, uint32_t mode) {
    uint8_t answer[EGORSTREAM_ANSWER_LENGTH];
    return egorstream_chance(c->file, c->file_length, mode, answer, sizeof answer);
}

/* With every weight 1 the exact chance of this chain is a half. */
static uint32_t exact(struct chain *c) { return chance(c, EGORSTREAM_MODE_EXACT); }
static uint32_t bounds(struct chain *c) { return chance(c, EGORSTREAM_MODE_BOUNDS); }
static uint32_t steps(struct chain *c) { return egorstream_steps(c->file, c->file_length, c->steps, STATES).number; }
static uint32_t order(struct chain *c) { return egorstream_order(c->file, c->file_length, c->list, c->states).number; }
static uint32_t near(struct chain *c) { return egorstream_near(c->file, c->file_length).number; }
static uint32_t near_from(struct chain *c) { return egorstream_near_from(c->file, c->file_length, 1).number; }
static uint32_t limit(struct chain *c) { return egorstream_limit(c->file, c->file_length, 1, 3).number; }
static uint32_t within(struct chain *c) { return egorstream_within(c->file, c->file_length, 1000).number; }
static uint32_t check(struct chain *c) {
    c->shares[0] = 2;
    return egorstream_check(c->file, c->file_length, c->shares, 4 * (1 + c->states)).number;
}
static uint32_t show(struct chain *c) {
    struct egorstream_written w = egorstream_show(c->file, c->file_length, c->text, sizeof c->text);
    c->text_length = w.length;
    return w.number;
}
static uint32_t make(struct chain *c) { return egorstream_make(c->text, c->text_length, c->made, sizeof c->made).number; }
static uint32_t copies(struct chain *c) { return egorstream_copies(c == &small ? 1 : 5, 1, 20, 100).number; }
static uint32_t plan_near(struct chain *c) { return egorstream_plan_near(c == &small ? 1 : 32, 1, 20, 100).number; }

static const struct {
    const char *name;
    uint32_t (*call)(struct chain *);
} calls[] = {
    {"egorstream_write", write_file}, {"egorstream_chance exact", exact}, {"egorstream_chance bounds", bounds},
    {"egorstream_steps", steps},      {"egorstream_order", order},        {"egorstream_near", near},
    {"egorstream_near_from", near_from}, {"egorstream_limit", limit},     {"egorstream_within", within},
    {"egorstream_check", check},      {"egorstream_show", show},          {"egorstream_make", make},
    {"egorstream_copies", copies},    {"egorstream_plan_near", plan_near},
};

struct job {
    uint32_t (*call)(struct chain *);
    struct chain *chain;
    uint32_t number;
    unsigned char *top;
};

static void *work(void *given) {
    struct job *j = given;
    unsigned char here;
    j->top = &here;
    j->number = j->call(j->chain);
    return NULL;
}

static void fail(const char *name, const char *why) {
    fprintf(stderr, "stack: %s: %s\n", name, why);
    exit(1);
}

/* The bytes between the thread's own frame and the lowest byte whose paint is gone. */
static size_t depth(const char *name, uint32_t (*call)(struct chain *), struct chain *c) {
    struct job j = {call, c, 0, NULL};
    unsigned char *stack = NULL;
    pthread_attr_t with;
    pthread_t thread;
    size_t low = 0;
    if (posix_memalign((void **)&stack, 4096, STACK) != 0)
        fail(name, "no memory");
    memset(stack, PAINT, STACK);
    if (pthread_attr_init(&with) != 0 || pthread_attr_setstack(&with, stack, STACK) != 0 || pthread_create(&thread, &with, work, &j) != 0 ||
        pthread_join(thread, NULL) != 0)
        fail(name, "no thread");
    pthread_attr_destroy(&with);
    while (low < STACK && stack[low] == PAINT)
        low++;
    size_t used = (size_t)(j.top - (stack + low));
    free(stack);
    if (j.number != 0)
        fail(name, "is refused");
    if (used > MOST)
        fail(name, "takes more than a thread of 256 KiB can give");
    return used;
}

int main(void) {
    fill(&small, 3);
    fill(&large, STATES);
    for (size_t i = 0; i < sizeof calls / sizeof calls[0]; i++) {
        size_t a = depth(calls[i].name, calls[i].call, &small);
        size_t b = depth(calls[i].name, calls[i].call, &large);
        printf("%-26s %8zu %8zu\n", calls[i].name, a, b);
    }
    return 0;
}
