/*
 * Calls the C entries on requests that come on standard input, one after the other, so that a program on any machine can try them.
 *
 * A request begins with a 4-byte number in the machine's order: 0 for the chance, 1 for the writer, 2 for the step list, 3 for an order, 4 for
 * the chance within so many steps, 5 for the check of a table, 6 for near chances, 7 for a limit, 8 for the exact chance of a plan, 9 for its near
 * chances; those from 20 on are in driver_text.h.
 *
 * The chance: five such numbers (mode, file length, memory length, where the answer begins in the memory, answer length), then the file,
 * then the memory. The reply: two such numbers (what the entry returned, whether the file is unchanged), then the memory as the entry left
 * it.
 *
 * The writer: seven such numbers (how many numbers each of the four tables has, memory length, where the buffer begins in the memory, buffer
 * length), then states, start and goals as 8-byte numbers, the tables in 8-byte numbers, the memory. The reply: four 4-byte numbers (number,
 * place, length, whether the tables are unchanged), then the memory.
 *
 * The step list: four such numbers (file length, memory length, where the list begins in the memory, how many records it has), then the file,
 * then the memory. The reply: six such numbers (number, place, count, numerator, denominator, whether the file is unchanged), then the memory.
 * The memory has a length, and the list a beginning, that is a multiple of 8.
 *
 * An order: the same, with a list of so many 8-byte numbers. The reply: four such numbers (number, place, sum, whether the file is unchanged), then
 * the memory.
 *
 * The chance within so many steps: three such numbers (file length, the steps' lower half and their upper), then the file. The reply: four such
 * numbers (number, place, parts, whether the file is unchanged).
 *
 * The check of a table: two such numbers (file length, table length), then the file, then the table. The reply: five such numbers (number, place,
 * whether it is right, the state, whether the file is unchanged), then the table.
 *
 * Near chances: four such numbers (file length, whether a state is given, its lower half and its upper), then the file. The reply: three such numbers
 * (number, place, whether the file is unchanged), then for each of the two chances lower and upper as 8-byte numbers and five of 4 bytes (twos, and of
 * each decimal its digits and tens, lower first).
 *
 * A limit: five such numbers (file length, the lower half and the upper of the digits, and of the tens), then the file. The reply: four such numbers
 * (number, place, verdict, whether the file is unchanged).
 *
 * A plan: four 8-byte numbers (copies, loss, rebuild, finish). The reply of its exact chance: number, place, then numerator and denominator as 8-byte
 * numbers; of its near chances: as above, with a file that is unchanged.
 *
 * A file, a table, a list or a buffer that is empty is handed over as a null pointer. The file, the tables and the memory end where a page begins that nobody may touch: who
 * reads or writes past them is stopped.
 */
#define _DEFAULT_SOURCE

#include "egorstream.h"
#include "lent.h"

/* What document 01 gives for each name of the header. */
#define IS(name, value) _Static_assert(EGORSTREAM_##name == (value), #name)
IS(MODE_DEFAULT, 0);
IS(MODE_EXACT, 1);
IS(MODE_BOUNDS, 2);
IS(ANSWER_LENGTH, 16);
IS(MOST_FILE_LENGTH, 69 * 512);
IS(MOST_STATES, 64);
IS(ANSWERED, 0);
IS(MODE_OR_LENGTH_WRONG, 1);
IS(ANSWER_TOO_SHORT, 2);
IS(START_WRONG, 3);
IS(GOALS_WRONG, 4);
IS(DENOMINATOR_WRONG, 5);
IS(EDGE_STATE_WRONG, 6);
IS(WEIGHT_WRONG, 7);
IS(EDGE_GIVEN_BEFORE, 8);
IS(ROW_SUM_WRONG, 9);
IS(ORDER_WRONG, 10);
IS(REWARD_WRONG, 11);
IS(NO_FIT, 12);
IS(FILE_LENGTH_WRONG, 20);
IS(BLOCK_CHECK_WRONG, 21);
IS(BLOCK_NUMBER_WRONG, 22);
IS(BLOCK_KIND_WRONG, 23);
IS(BLOCK_CONTENT_WRONG, 24);
IS(STEPS_WRONG, 32);
IS(TABLE_DENOMINATOR_WRONG, 33);
IS(TABLE_NUMERATOR_WRONG, 34);
IS(MOST_TABLE_LENGTH, 4 * 65);
IS(MOST_STEPS, 1000);
IS(PARTS, 1073741824);
#undef IS

/* A record is four numbers of 8 bytes, side by side. */
_Static_assert(sizeof(struct egorstream_step) == 32, "step");
_Static_assert(offsetof(struct egorstream_step, state) == 0, "state");
_Static_assert(offsetof(struct egorstream_step, rows) == 8, "rows");
_Static_assert(offsetof(struct egorstream_step, columns) == 16, "columns");
_Static_assert(offsetof(struct egorstream_step, divisor) == 24, "divisor");

/* Two numbers of 8 bytes, five of 4, and what C puts behind them. */
_Static_assert(sizeof(struct egorstream_around) == 40, "share");
_Static_assert(offsetof(struct egorstream_around, twos) == 16, "twos");
_Static_assert(offsetof(struct egorstream_around, upper_tens) == 32, "upper_tens");
_Static_assert(sizeof(struct egorstream_nearness) == 88, "nearly");
_Static_assert(offsetof(struct egorstream_nearness, near) == 8, "near");

_Static_assert(sizeof(struct egorstream_limited) == 12, "limited");
_Static_assert(offsetof(struct egorstream_limited, verdict) == 8, "verdict");
_Static_assert(sizeof(struct egorstream_planned) == 24, "planned");
_Static_assert(offsetof(struct egorstream_planned, numerator) == 8, "numerator");

static void answer(void)
{
    uint32_t request[5];
    take(request, sizeof request);
    struct lent lent = lend(request[1], request[2]);
    uint32_t number = egorstream_chance(file_of(&lent), lent.file_length, request[0], lent.memory + request[3], request[4]);
    uint32_t reply[2] = {number, unchanged(&lent)};
    tell_lent(reply, 2, &lent);
}

static void write_file(void)
{
    uint32_t request[7];
    uint64_t numbers[3];
    const uint64_t *table[4];
    uint8_t *lent[4], *copy[4];
    take(request, sizeof request);
    take(numbers, sizeof numbers);
    for (int i = 0; i < 4; i++) {
        size_t length = request[i] * sizeof(uint64_t);
        lent[i] = room(length);
        copy[i] = room(length);
        take(lent[i], length);
        memcpy(copy[i], lent[i], length);
        table[i] = length == 0 ? NULL : (const uint64_t *)(const void *)lent[i];
    }
    size_t memory_length = request[4];
    uint8_t *memory = room(memory_length);
    take(memory, memory_length);

    struct egorstream_written written =
        egorstream_write(numbers[0], numbers[1], numbers[2], table[0], request[0], table[1], request[1], table[2], request[2], table[3],
                         request[3], request[6] == 0 ? NULL : memory + request[5], request[6]);
    uint32_t reply[4] = {written.number, written.place, in_four_bytes(written.length), 1};
    for (int i = 0; i < 4; i++) {
        size_t length = request[i] * sizeof(uint64_t);
        reply[3] &= memcmp(copy[i], lent[i], length) == 0;
        leave(copy[i], length);
        leave(lent[i], length);
    }
    tell(reply, 4, memory, memory_length);
}

static void list_steps(void)
{
    uint32_t request[4];
    take(request, sizeof request);
    struct lent lent = lend(request[0], request[1]);
    struct egorstream_step *list = request[3] == 0 ? NULL : (struct egorstream_step *)(void *)(lent.memory + request[2]);
    struct egorstream_stepped stepped = egorstream_steps(file_of(&lent), lent.file_length, list, request[3]);
    uint32_t reply[6] = {stepped.number,
                         stepped.place,
                         in_four_bytes(stepped.count),
                         in_four_bytes(stepped.numerator),
                         in_four_bytes(stepped.denominator),
                         unchanged(&lent)};
    tell_lent(reply, 6, &lent);
}

static void choose_order(void)
{
    uint32_t request[4];
    take(request, sizeof request);
    struct lent lent = lend(request[0], request[1]);
    uint64_t *list = request[3] == 0 ? NULL : (uint64_t *)(void *)(lent.memory + request[2]);
    struct egorstream_ordered ordered = egorstream_order(file_of(&lent), lent.file_length, list, request[3]);
    uint32_t reply[4] = {ordered.number, ordered.place, in_four_bytes(ordered.sum), unchanged(&lent)};
    tell_lent(reply, 4, &lent);
}

static uint64_t joined(const uint32_t *halves)
{
    return (uint64_t)halves[1] << 32 | halves[0];
}

static void reach(void)
{
    uint32_t request[3];
    take(request, sizeof request);
    struct lent lent = lend(request[0], 0);
    struct egorstream_reached reached = egorstream_within(file_of(&lent), lent.file_length, joined(request + 1));
    uint32_t reply[4] = {reached.number, reached.place, in_four_bytes(reached.parts), unchanged(&lent)};
    tell_lent(reply, 4, &lent);
}

static void check_table(void)
{
    uint32_t request[2];
    take(request, sizeof request);
    struct lent lent = lend(request[0], request[1]);
    const uint8_t *table = lent.memory_length == 0 ? NULL : lent.memory;
    struct egorstream_checked checked = egorstream_check(file_of(&lent), lent.file_length, table, lent.memory_length);
    uint32_t reply[5] = {checked.number, checked.place, checked.right, checked.state, unchanged(&lent)};
    tell_lent(reply, 5, &lent);
}

static void put_share(uint32_t *reply, struct egorstream_around share)
{
    memcpy(reply, &share.lower, sizeof share.lower);
    memcpy(reply + 2, &share.upper, sizeof share.upper);
    reply[4] = share.twos;
    reply[5] = share.lower_digits;
    reply[6] = share.lower_tens;
    reply[7] = share.upper_digits;
    reply[8] = share.upper_tens;
}

/* The numbers of a reply on near chances. */
#define NEAR 21

static void put_nearly(uint32_t *reply, struct egorstream_nearness nearly, bool file_unchanged)
{
    reply[0] = nearly.number;
    reply[1] = nearly.place;
    reply[2] = file_unchanged;
    put_share(reply + 3, nearly.near);
    put_share(reply + 12, nearly.miss);
}

static void come_near(void)
{
    uint32_t request[4], reply[NEAR];
    take(request, sizeof request);
    struct lent lent = lend(request[0], 0);
    struct egorstream_nearness nearly = request[1] == 0 ? egorstream_near(file_of(&lent), lent.file_length)
                                                      : egorstream_near_from(file_of(&lent), lent.file_length, joined(request + 2));
    put_nearly(reply, nearly, unchanged(&lent));
    tell_lent(reply, NEAR, &lent);
}

static void judge(void)
{
    uint32_t request[5];
    take(request, sizeof request);
    struct lent lent = lend(request[0], 0);
    struct egorstream_limited limited = egorstream_limit(file_of(&lent), lent.file_length, joined(request + 1), joined(request + 3));
    uint32_t reply[4] = {limited.number, limited.place, limited.verdict, unchanged(&lent)};
    tell_lent(reply, 4, &lent);
}

static void plan(void)
{
    uint64_t plan[4];
    take(plan, sizeof plan);
    struct egorstream_planned planned = egorstream_copies(plan[0], plan[1], plan[2], plan[3]);
    uint32_t reply[6] = {planned.number, planned.place};
    memcpy(reply + 2, &planned.numerator, sizeof planned.numerator);
    memcpy(reply + 4, &planned.denominator, sizeof planned.denominator);
    tell_numbers(reply, 6);
}

static void plan_near(void)
{
    uint64_t plan[4];
    uint32_t reply[NEAR];
    take(plan, sizeof plan);
    put_nearly(reply, egorstream_plan_near(plan[0], plan[1], plan[2], plan[3]), true);
    tell_numbers(reply, NEAR);
}

#include "driver_text.h"

static void (*const KINDS[])(void) = {answer, write_file, list_steps, choose_order, reach, check_table, come_near, judge, plan, plan_near, [20] = show_text, make_file};

int main(void)
{
    uint32_t kind;
    while (fread(&kind, sizeof kind, 1, stdin) == 1) {
        KINDS[kind]();
    }
}
