/*
 * What an exporter does: builds a chain's tables, has its chain file written, and keeps the file.
 * The chain is the address chain: a host picks an address and asks four times whether it is taken.
 *
 *     cc -std=c11 -Wall -Wextra -Werror -I include examples/exporter.c \
 *         target/staticlib/libegorstream.a -o exporter
 *     ./exporter address.chain
 */
#include "egorstream.h"

#include <errno.h>
#include <inttypes.h>
#include <stdbool.h>
#include <stdio.h>
#include <stdlib.h>
#include <string.h>

enum { STATES = 7, OKAY = 5, FAILED = 6 };

#define LENGTH(table) (sizeof(table) / sizeof(table)[0])

static const uint64_t denominators[] = {8, 5, 5, 5, 5, 1, 1};

/* From, to, weight, reward. */
static const uint64_t edges[] = {
    0, OKAY, 7, 0, 0, 1, 1, 0,
    1, 0, 4, 0, 1, 2, 1, 0,
    2, 0, 4, 0, 2, 3, 1, 0,
    3, 0, 4, 0, 3, 4, 1, 0,
    4, 0, 4, 0, 4, FAILED, 1, 0,
    OKAY, OKAY, 1, 0,
    FAILED, FAILED, 1, 0,
};

static const uint64_t order[] = {0, 1, 2, 3, 4, 5, 6};
static const uint64_t rewards[STATES] = {0};

static uint8_t buffer[EGORSTREAM_MOST_FILE_LENGTH];

/* Writes the first `length` bytes of the buffer to a file; tells why where it cannot. */
static bool keep(const char *name, size_t length)
{
    FILE *stream = fopen(name, "wb");
    if (stream == NULL) {
        fprintf(stderr, "%s: %s\n", name, strerror(errno));
        return false;
    }
    bool whole = fwrite(buffer, 1, length, stream) == length;
    if (fclose(stream) != 0 || !whole) {
        fprintf(stderr, "%s: could not be written\n", name);
        return false;
    }
    return true;
}

int main(int argc, char **argv)
{
    if (argc != 2) {
        fprintf(stderr, "usage: exporter file\n");
        return EXIT_FAILURE;
    }
    struct egorstream_written written =
        egorstream_write(STATES, 0, UINT64_C(1) << OKAY, denominators, LENGTH(denominators), edges, LENGTH(edges),
                         order, LENGTH(order), rewards, LENGTH(rewards), buffer, sizeof buffer);
    if (written.number != EGORSTREAM_ANSWERED) {
        fprintf(stderr, "refused %" PRIu32 " at %" PRIu32 "\n", written.number, written.place);
        return EXIT_FAILURE;
    }
    return keep(argv[1], (size_t)written.length) ? EXIT_SUCCESS : EXIT_FAILURE;
}
