/*
 * What the driver lends to a call, and what it tells of it. Whatever is lent ends where a page begins that nobody may touch.
 */
#ifndef LENT_H
#define LENT_H

#include <stdbool.h>
#include <stddef.h>
#include <stdint.h>
#include <stdio.h>
#include <stdlib.h>
#include <string.h>
#include <sys/mman.h>

/* A page, or a multiple of it, on every machine that this runs on. */
#define PAGE ((size_t)65536)

/* What a room takes with the page behind it. */
static size_t mapped(size_t length)
{
    return (length / PAGE + 2) * PAGE;
}

static uint8_t *room(size_t length)
{
    size_t all = mapped(length);
    uint8_t *start = mmap(NULL, all, PROT_READ | PROT_WRITE, MAP_PRIVATE | MAP_ANONYMOUS, -1, 0);
    if (start == MAP_FAILED || mprotect(start + all - PAGE, PAGE, PROT_NONE) != 0) {
        fputs("driver: no room\n", stderr);
        exit(1);
    }
    return start + all - PAGE - length;
}

static void leave(uint8_t *bytes, size_t length)
{
    munmap(bytes + length + PAGE - mapped(length), mapped(length));
}

static void take(void *bytes, size_t length)
{
    if (length != 0 && fread(bytes, length, 1, stdin) != 1) {
        fputs("driver: a request is cut short\n", stderr);
        exit(1);
    }
}

/* What a call is handed: a file, of which a copy is kept, and memory that it may write in. */
struct lent {
    uint8_t *file, *copy, *memory;
    size_t file_length, memory_length;
};

static struct lent lend(size_t file_length, size_t memory_length)
{
    struct lent lent = {room(file_length), room(file_length), room(memory_length), file_length, memory_length};
    take(lent.file, file_length);
    take(lent.memory, memory_length);
    memcpy(lent.copy, lent.file, file_length);
    return lent;
}

static const uint8_t *file_of(const struct lent *lent)
{
    return lent->file_length == 0 ? NULL : lent->file;
}

static bool unchanged(const struct lent *lent)
{
    return memcmp(lent->copy, lent->file, lent->file_length) == 0;
}

static void tell_numbers(const uint32_t *reply, size_t numbers)
{
    fwrite(reply, sizeof *reply, numbers, stdout);
    fflush(stdout);
}

static void tell(const uint32_t *reply, size_t numbers, uint8_t *memory, size_t memory_length)
{
    fwrite(reply, sizeof *reply, numbers, stdout);
    fwrite(memory, 1, memory_length, stdout);
    fflush(stdout);
    leave(memory, memory_length);
}

static void tell_lent(const uint32_t *reply, size_t numbers, const struct lent *lent)
{
    tell(reply, numbers, lent->memory, lent->memory_length);
    leave(lent->copy, lent->file_length);
    leave(lent->file, lent->file_length);
}

/* No number of an answer is so large: one that does not fit shows as one that is not expected. */
static uint32_t in_four_bytes(uint64_t number)
{
    return number > UINT32_MAX ? UINT32_MAX : (uint32_t)number;
}

#endif
