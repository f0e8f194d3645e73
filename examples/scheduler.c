/*
 * What a scheduler does with chain files: asks for the exact chance by name and, by the default, for
 * bounds, and tells the answers, or why there are none. Where the exact numbers grew too large it
 * tells the steps before.
 *
 *     cc -std=c11 -Wall -Wextra -Werror -I include examples/scheduler.c \
 *         target/staticlib/libegorstream.a -o scheduler
 *     ./scheduler examples/address.chain examples/gateway.chain
 */
#include "egorstream.h"

#include <errno.h>
#include <inttypes.h>
#include <stdbool.h>
#include <stdio.h>
#include <stdlib.h>
#include <string.h>

struct fraction {
    uint32_t numerator;
    uint32_t denominator;
};

/* One byte more than the longest chain file, so that a longer one shows. */
static uint8_t file[EGORSTREAM_MOST_FILE_LENGTH + 1];

static const char *refusal_name(uint32_t number)
{
    switch (number) {
    case EGORSTREAM_MODE_OR_LENGTH_WRONG: return "mode or length wrong";
    case EGORSTREAM_ANSWER_TOO_SHORT: return "answer too short";
    case EGORSTREAM_START_WRONG: return "start wrong";
    case EGORSTREAM_GOALS_WRONG: return "goals wrong";
    case EGORSTREAM_DENOMINATOR_WRONG: return "denominator wrong";
    case EGORSTREAM_EDGE_STATE_WRONG: return "edge state wrong";
    case EGORSTREAM_WEIGHT_WRONG: return "weight wrong";
    case EGORSTREAM_EDGE_GIVEN_BEFORE: return "edge given before";
    case EGORSTREAM_ROW_SUM_WRONG: return "row sum wrong";
    case EGORSTREAM_ORDER_WRONG: return "order wrong";
    case EGORSTREAM_REWARD_WRONG: return "reward wrong";
    case EGORSTREAM_NO_FIT: return "no fit";
    case EGORSTREAM_FILE_LENGTH_WRONG: return "file length wrong";
    case EGORSTREAM_BLOCK_CHECK_WRONG: return "block check wrong";
    case EGORSTREAM_BLOCK_NUMBER_WRONG: return "block number wrong";
    case EGORSTREAM_BLOCK_KIND_WRONG: return "block kind wrong";
    case EGORSTREAM_BLOCK_CONTENT_WRONG: return "block content wrong";
    default: return "unknown refusal";
    }
}

static uint32_t number_at(const uint8_t *bytes)
{
    return (uint32_t)bytes[0] | (uint32_t)bytes[1] << 8 | (uint32_t)bytes[2] << 16 |
           (uint32_t)bytes[3] << 24;
}

/* Tells the steps that were finished before the exact numbers grew too large. */
static void tell_steps(const char *name, size_t length)
{
    struct egorstream_step list[EGORSTREAM_MOST_STATES];
    struct egorstream_stepped stepped = egorstream_steps(file, length, list, EGORSTREAM_MOST_STATES);
    for (size_t i = 0; i < stepped.count; i++) {
        printf("%s: state %" PRIu64 " rows %" PRIu64 " columns %" PRIu64 " divisor %" PRIu64 "\n", name,
               list[i].state, list[i].rows, list[i].columns, list[i].divisor);
    }
    printf("%s: no fit at position %" PRIu32 " of the order\n", name, stepped.place);
}

/* Asks for both fractions; tells of a refusal. */
static bool ask(const char *name, const char *figure, size_t length, uint32_t mode,
                struct fraction *lower, struct fraction *upper)
{
    uint8_t answer[EGORSTREAM_ANSWER_LENGTH];
    uint32_t number = egorstream_chance(file, length, mode, answer, sizeof answer);
    if (number != EGORSTREAM_ANSWERED) {
        printf("%s: %s refused, %s (%" PRIu32 ")\n", name, figure, refusal_name(number), number);
        if (number == EGORSTREAM_NO_FIT) {
            tell_steps(name, length);
        }
        return false;
    }
    *lower = (struct fraction){number_at(answer), number_at(answer + 4)};
    *upper = (struct fraction){number_at(answer + 8), number_at(answer + 12)};
    return true;
}

/* Reads a file into `file`; tells why where it cannot. */
static bool read_file(const char *name, size_t *length)
{
    FILE *stream = fopen(name, "rb");
    if (stream == NULL) {
        fprintf(stderr, "%s: %s\n", name, strerror(errno));
        return false;
    }
    *length = fread(file, 1, sizeof file, stream);
    bool whole = ferror(stream) == 0;
    fclose(stream);
    if (!whole) {
        fprintf(stderr, "%s: could not be read\n", name);
        return false;
    }
    if (*length > EGORSTREAM_MOST_FILE_LENGTH) {
        fprintf(stderr, "%s: longer than any chain file\n", name);
        return false;
    }
    return true;
}

/*
 * Tells the answers on one file; false where there are no bounds, because the file or its chain was
 * refused. An exact chance that does not fit is no failure: the bounds stand.
 */
static bool tell(const char *name)
{
    size_t length;
    struct fraction lower, upper;
    if (!read_file(name, &length)) {
        return false;
    }
    if (ask(name, "chance", length, EGORSTREAM_MODE_EXACT, &lower, &upper)) {
        printf("%s: chance %" PRIu32 "/%" PRIu32 "\n", name, lower.numerator, lower.denominator);
    }
    if (!ask(name, "bounds", length, EGORSTREAM_MODE_DEFAULT, &lower, &upper)) {
        return false;
    }
    printf("%s: bounds %" PRIu32 "/%" PRIu32 " %" PRIu32 "/%" PRIu32 "\n", name, lower.numerator,
           lower.denominator, upper.numerator, upper.denominator);
    return true;
}

int main(int argc, char **argv)
{
    if (argc < 2) {
        fprintf(stderr, "usage: scheduler file...\n");
        return EXIT_FAILURE;
    }
    bool all = true;
    for (int i = 1; i < argc; i++) {
        if (!tell(argv[i])) {
            all = false;
        }
    }
    return all ? EXIT_SUCCESS : EXIT_FAILURE;
}
