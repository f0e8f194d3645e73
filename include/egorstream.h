/*
 * The chance that a chain reaches a goal, from the bytes of a chain file; the steps by which it was
 * sought; near chances, which say six digits of a chance however small it is; whether it is at most a limit;
 * an order that is chosen for it; the chance within so many steps; whether a table is the chance at every
 * state; the chain file of a chain, from its tables; chain files as texts; and the chance that a plan loses
 * all its copies.
 *
 * Link with libegorstream.a, for the functions on plans with libegorplans.a.
 */
#ifndef EGORSTREAM_H
#define EGORSTREAM_H

#include <stddef.h>
#include <stdint.h>

#ifdef __cplusplus
extern "C" {
#endif

/* Modes. */

/*
 * The default: bounds, just as EGORSTREAM_MODE_BOUNDS. It meant exact in earlier versions of this
 * library, and both fractions of its answer were the chance. Who reads only the first fraction now
 * reads a lower bound, and the chance may be greater: read both, or ask for exact by name.
 */
#define EGORSTREAM_MODE_DEFAULT UINT32_C(0)
/* The exact chance, or EGORSTREAM_NO_FIT where its numbers grow too large. */
#define EGORSTREAM_MODE_EXACT UINT32_C(1)
/*
 * A lower and an upper bound of the chance. They always fit. A lower bound of 0/1 is no chance of
 * nought, and below about one in 10^9 the upper bounds of two chains must not be compared:
 * egorstream_near says such a chance.
 */
#define EGORSTREAM_MODE_BOUNDS UINT32_C(2)

/* The bytes of an answer: four little-endian numbers of 4 bytes. */
#define EGORSTREAM_ANSWER_LENGTH 16

/* The longest chain file: 69 blocks of 512 bytes. */
#define EGORSTREAM_MOST_FILE_LENGTH (69 * 512)

/* The longest text that egorstream_make takes, and the room that egorstream_show asks for. */
#define EGORSTREAM_MOST_TEXT_LENGTH 262144
#define EGORSTREAM_SHOWN_ROOM 429272

/* The most states of a chain: a step list with so many records has room for every chain. */
#define EGORSTREAM_MOST_STATES 64

/* The longest table that egorstream_check takes, for a chain of 64 states. */
#define EGORSTREAM_MOST_TABLE_LENGTH (4 * (EGORSTREAM_MOST_STATES + 1))

/* The most steps that egorstream_within takes, and the parts that it answers a number of: 2^30. */
#define EGORSTREAM_MOST_STEPS UINT64_C(1000)
#define EGORSTREAM_PARTS UINT64_C(1073741824)

/* What egorstream_chance returns, and the number that the other functions answer. */

/* Not refused: the answer, the list, the file or the text is written, or what is returned says it. */
#define EGORSTREAM_ANSWERED UINT32_C(0)

/* The request is wrong: the caller must be mended. */

/*
 * The mode is above 2. For egorstream_order: the list is not as long as the chain has states. For
 * egorstream_write: the number of states is not 1 to 64, a table's length does not fit it, the edge
 * numbers are not in fours, or there are no edges or over 4,096.
 */
#define EGORSTREAM_MODE_OR_LENGTH_WRONG UINT32_C(1)
/*
 * The answer has fewer than 16 bytes. For egorstream_steps: the list has fewer records than the chain
 * has states. For egorstream_check: the table does not have four bytes for each state and four more.
 * For egorstream_write: the buffer is shorter than the file. For egorstream_show and egorstream_make: it
 * has less than EGORSTREAM_SHOWN_ROOM or EGORSTREAM_MOST_FILE_LENGTH bytes.
 */
#define EGORSTREAM_ANSWER_TOO_SHORT UINT32_C(2)

/* The file is whole, but it, the text or the tables hold no chain: what wrote them must be mended. */

/* The start is no state of the chain. */
#define EGORSTREAM_START_WRONG UINT32_C(3)
/* No state is a goal, or a goal is no state of the chain. */
#define EGORSTREAM_GOALS_WRONG UINT32_C(4)
/* A denominator is 0 or above 2,147,483,647. */
#define EGORSTREAM_DENOMINATOR_WRONG UINT32_C(5)
/* An edge names a state that the chain does not have. */
#define EGORSTREAM_EDGE_STATE_WRONG UINT32_C(6)
/* An edge's weight is 0 or above 2,147,483,647. */
#define EGORSTREAM_WEIGHT_WRONG UINT32_C(7)
/* Two edges lead from the same state to the same state. */
#define EGORSTREAM_EDGE_GIVEN_BEFORE UINT32_C(8)
/* The weights of a state's edges do not sum to its denominator. */
#define EGORSTREAM_ROW_SUM_WRONG UINT32_C(9)
/* The order names a state that the chain does not have, or one state twice. */
#define EGORSTREAM_ORDER_WRONG UINT32_C(10)
/*
 * A reward, of a state or of an edge, is above 65,535. Only egorstream_write gives it: a file has no
 * room for one.
 */
#define EGORSTREAM_REWARD_WRONG UINT32_C(11)

/* The chain is well formed, but its exact chance was not found. */

/*
 * Numbers on the way grew above 2,147,483,647: ask egorstream_near, which never gives this number; or for
 * bounds, where a lower bound of 0/1 is no chance of nought; or try another order, as egorstream_order
 * chooses it. The step list shows where they grew.
 * Of the modes only EGORSTREAM_MODE_EXACT returns it, and nothing is wrong with the chain.
 */
#define EGORSTREAM_NO_FIT UINT32_C(12)

/*
 * The file is damaged or is no chain file: fetch or write it again. Where only blocks of edges
 * are damaged, the program salvage still gives bounds.
 */

/* The file is empty, or its length is no multiple of 512. */
#define EGORSTREAM_FILE_LENGTH_WRONG UINT32_C(20)
/* A block's check does not match its bytes, by the rule of the block's version. */
#define EGORSTREAM_BLOCK_CHECK_WRONG UINT32_C(21)
/* A block does not have the number of its place. */
#define EGORSTREAM_BLOCK_NUMBER_WRONG UINT32_C(22)
/* A block's kind is unknown or out of turn, or its version is neither 1 nor 2 or not block 0's. */
#define EGORSTREAM_BLOCK_KIND_WRONG UINT32_C(23)
/*
 * A count, flag or reserved byte is wrong, in version 1 also a reward of an edge, or the file does not
 * have the blocks its head demands.
 */
#define EGORSTREAM_BLOCK_CONTENT_WRONG UINT32_C(24)

/* The request is wrong: the caller must be mended. */

/* The copies of a plan are not 1 to 32. Only egorstream_copies and egorstream_plan_near give this and the next. */
#define EGORSTREAM_COPIES_WRONG UINT32_C(30)
/* A weight of a plan is not 1 to 1,000,000; the place is 0 for the loss, 1 for the rebuild, 2 for the finish. */
#define EGORSTREAM_PLAN_WEIGHT_WRONG UINT32_C(31)
/* More than 1,000 steps. Only egorstream_within gives it, before every other number. */
#define EGORSTREAM_STEPS_WRONG UINT32_C(32)

/* The table is wrong in its form: what wrote it must be mended. Only egorstream_check gives these. */

/* The table's denominator is 0 or above 2,147,483,647. */
#define EGORSTREAM_TABLE_DENOMINATOR_WRONG UINT32_C(33)
/* A numerator is above the table's denominator; the place is the first such state. */
#define EGORSTREAM_TABLE_NUMERATOR_WRONG UINT32_C(34)

/* The limit is wrong: the caller must be mended. */

/* Digits and tens are no limit. Only egorstream_limit gives it, before every other number. */
#define EGORSTREAM_LIMIT_WRONG UINT32_C(35)

/* The text is no chain's: what wrote it must be mended. Only egorstream_make gives these. */

/*
 * A line is wrong; the place is its number, counted from 1 as editors count. Where lines are missing at
 * the end, it is the number after the last.
 */
#define EGORSTREAM_LINE_WRONG UINT32_C(40)
/* The text is longer than EGORSTREAM_MOST_TEXT_LENGTH. */
#define EGORSTREAM_TEXT_TOO_LONG UINT32_C(41)

/*
 * Finds the chance that the chain in a file reaches a goal from its start.
 *
 * file, file_length      The bytes of a chain file. They are only read. A null pointer with length
 *                        0 is an empty file.
 * mode                   One of the modes above.
 * answer, answer_length  Room for the answer, at least 16 bytes, at any alignment. It must not
 *                        overlap the file.
 *
 * Returns 0 and writes 16 bytes: the lower fraction, then the upper, each as its numerator and its
 * denominator, four little-endian numbers of 4 bytes. Both fractions are in lowest terms; zero is
 * 0/1. The chance lies between them. An exact answer is one fraction written twice; bounds are equal
 * where nothing was rounded.
 *
 * Otherwise returns the number of the refusal, and the answer's bytes stay as they were. Bytes of
 * the answer beyond the first 16 always stay as they were.
 *
 * The mode is tested first, then the answer's length, then the file, then the chain.
 *
 * Its tables are its own and lie on the stack, some 187,000 bytes: give a thread that calls it a
 * stack of 256 KiB or more. It keeps nothing between calls, so threads may call it at the same time.
 */
uint32_t egorstream_chance(const uint8_t *file, size_t file_length, uint32_t mode,
                           uint8_t *answer, size_t answer_length);

/* What the step list says of one state that was removed. */
struct egorstream_step {
    uint64_t state;
    /* How many other rows had a weight to it, that of the start included. */
    uint64_t rows;
    /* In how many columns its row had a weight: other states, the goal, and being lost. */
    uint64_t columns;
    /* The largest divisor that was taken out of a row in this step; 1 if there was none. */
    uint64_t divisor;
};

/*
 * What egorstream_steps answers: 0, 0, how many records it wrote, and the chance; or a refusal's
 * number and place, how many records it wrote, which is 0 but for EGORSTREAM_NO_FIT, 0 and 0.
 */
struct egorstream_stepped {
    uint32_t number;
    uint32_t place;
    uint64_t count;
    uint64_t numerator;
    uint64_t denominator;
};

/*
 * Finds the exact chance, as egorstream_chance does, and writes a record for each state that it
 * removes on the way, in the order of removal, to the front of a list.
 *
 * file, file_length      The bytes of a chain file, as above.
 * list, list_length      Room for the records, which the length counts: at least as many as the chain
 *                        has states, though fewer may be removed. It is aligned as uint64_t is, and
 *                        does not overlap the file. A null pointer with length 0 is an empty list.
 *
 * EGORSTREAM_NO_FIT has as its place the position in the order of the step that was not finished; the
 * records of the steps before it stand. Every other refusal leaves the whole list as it was. Records
 * past the last one written always stay as they were.
 *
 * The file is tested first, then the list's length, then the chain. Its place is a block, a state, the
 * index of an edge or a position of the order, each from 0, or else 0. Its tables are its own, as
 * those of egorstream_chance are: the same stack is enough.
 */
struct egorstream_stepped egorstream_steps(const uint8_t *file, size_t file_length,
                                           struct egorstream_step *list, size_t list_length);

/*
 * What egorstream_order answers: 0, 0 and the sum of the products; or a refusal's number and place, and
 * 0.
 */
struct egorstream_ordered {
    uint32_t number;
    uint32_t place;
    uint64_t sum;
};

/*
 * Chooses an order for the chain of a file and writes it into a list: at each turn the live state, not
 * the start, with the least product of the rows that lead to it and the columns that it leads to, as
 * egorstream_steps counts them, the lowest number on a tie; then the states passed over, rising. The
 * file's own order is not looked at.
 *
 * file, file_length      The bytes of a chain file, as above.
 * list, list_length      Room for as many numbers as the chain has states, which is byte 6 of the file:
 *                        no less and no more. It is aligned as uint64_t is, and does not overlap the
 *                        file.
 *
 * The sum is what the rows times the columns of a step list with that order add up to, where it ends in
 * the chance. Nothing says that the order is the best, or that it meets no EGORSTREAM_NO_FIT.
 *
 * The file is tested first, then the list's length, where another is
 * EGORSTREAM_MODE_OR_LENGTH_WRONG, then the chain; EGORSTREAM_ORDER_WRONG and EGORSTREAM_NO_FIT never
 * come. A refusal leaves the whole list as it was. The place is a block, a state or the index of an edge,
 * each from 0, or else 0. The stack of egorstream_chance is enough.
 */
struct egorstream_ordered egorstream_order(const uint8_t *file, size_t file_length, uint64_t *list,
                                           size_t list_length);

/*
 * A chance between two numbers over one power of two, lower / 2^twos and upper / 2^twos, and each of the two in
 * six decimal digits, the lower rounded down and the upper up: digits x 10^-tens. 0 is digits 0, tens 0; 1 is
 * digits 1, tens 0. The chance lies between the digits too.
 */
struct egorstream_around {
    uint64_t lower;
    uint64_t upper;
    uint32_t twos;
    uint32_t lower_digits;
    uint32_t lower_tens;
    uint32_t upper_digits;
    uint32_t upper_tens;
};

/*
 * What egorstream_near, egorstream_near_from and egorstream_plan_near answer: 0, 0, the chance of reaching a goal and that of missing
 * every goal; or a refusal's number and place, and else 0.
 */
struct egorstream_nearness {
    uint32_t number;
    uint32_t place;
    struct egorstream_around near;
    struct egorstream_around miss;
};

/*
 * Finds the chance of reaching a goal, and that of missing every goal, each between two numbers that are near
 * each other in proportion, however small the chance is: upper x 2^16 is at most lower x (2^16 + 1). Every
 * well-formed chain is answered: EGORSTREAM_NO_FIT never comes. For a chance near 1, look at the miss.
 *
 * file, file_length      The bytes of a chain file, as above.
 * state                  For egorstream_near_from: the state to begin in. It takes the place of the file's
 *                        start before anything of the chain is looked at; EGORSTREAM_START_WRONG where it is
 *                        no state of the chain.
 *
 * The lower number is below 2^32, the upper at most 2^33, the twos at most 2,110, the tens at most 700. Where
 * no goal can be missed, all of the miss is 0.
 *
 * The file is tested first, then the chain, its order included. The place is a block, a state, the index of an
 * edge or a position of the order, each from 0, or else 0. Its tables are its own, as those of
 * egorstream_chance are: the same stack is enough.
 */
struct egorstream_nearness egorstream_near(const uint8_t *file, size_t file_length);
struct egorstream_nearness egorstream_near_from(const uint8_t *file, size_t file_length, uint64_t state);

/* The verdicts of egorstream_limit: the chance is at most the limit; it is above; it cannot be said. */
#define EGORSTREAM_KEPT UINT32_C(1)
#define EGORSTREAM_BROKEN UINT32_C(2)
#define EGORSTREAM_OPEN UINT32_C(3)

/* What egorstream_limit answers: 0, 0 and the verdict; or a refusal's number and place, and 0. */
struct egorstream_limited {
    uint32_t number;
    uint32_t place;
    uint32_t verdict;
};

/*
 * Says whether the chance of reaching a goal is at most a limit, digits x 10^-tens.
 *
 * file, file_length      The bytes of a chain file, as above.
 * digits, tens           Digits 1 to 9,999,999 and tens 0 to 700, at most 1 together; else EGORSTREAM_LIMIT_WRONG.
 *                        What egorstream_near answers as digits and tens of a figure above 0 is a limit: to
 *                        compare two nights, give last night's upper figure.
 *
 * Where the exact chance has room, as EGORSTREAM_MODE_EXACT finds it, that decides. Else the figures of
 * egorstream_near do: kept where the upper one is at most the limit, broken where the lower one is above it,
 * and open where the limit lies between.
 *
 * The limit is tested first, then the file, then the chain, its order included; EGORSTREAM_NO_FIT never comes.
 * The place is as in egorstream_near. Its tables are its own, as those of egorstream_chance are: the same
 * stack is enough.
 */
struct egorstream_limited egorstream_limit(const uint8_t *file, size_t file_length, uint64_t digits, uint64_t tens);

/* What egorstream_within answers: 0, 0 and the parts; or a refusal's number and place, and 0. */
struct egorstream_reached {
    uint32_t number;
    uint32_t place;
    uint64_t parts;
};

/*
 * Finds the chance of having reached a goal within so many steps, as a number of EGORSTREAM_PARTS.
 *
 * file, file_length      The bytes of a chain file, as above.
 * steps                  0 to EGORSTREAM_MOST_STEPS.
 *
 * The parts are at most the true chance within so many steps, and short of it by at most one part for
 * each step; so they are at most the chance too. With no step they are 0, unless the start is a goal.
 *
 * The steps are tested first, then the file, then the chain; its order is not looked at. The place is
 * a block, a state or the index of an edge, each from 0, or else 0. Its tables are its own, as those of
 * egorstream_chance are: the same stack is enough.
 */
struct egorstream_reached egorstream_within(const uint8_t *file, size_t file_length, uint64_t steps);

/*
 * What egorstream_check answers: 0, 0, 1 and 0 where the table is right; 0, 0, 0 and a state where it
 * is not; or a refusal's number and place, 0 and 0.
 */
struct egorstream_checked {
    uint32_t number;
    uint32_t place;
    uint32_t right;
    uint32_t state;
};

/*
 * Says whether a table is the chance at every state, also at those that the start does not reach.
 *
 * file, file_length      The bytes of a chain file, as above.
 * table, table_length    Little-endian numbers of 4 bytes: a denominator, and then a numerator for each
 *                        state. The fractions need not be in lowest terms. They are only read. A null
 *                        pointer with length 0 is an empty table.
 *
 * A table is right where a goal has the denominator, a state with no path to a goal has 0, and at each
 * other state its denominator in the chain times its numerator is the sum of weight times numerator of
 * the targets of its edges. Where it is not, the state is the first that breaks this.
 *
 * The file is tested first, then the table's length, then the chain, then the table's denominator, then
 * its numerators; the order is not looked at. The place is a block, a state or the index of an edge,
 * each from 0, or else 0. Its tables are its own, as those of egorstream_chance are: the same stack is
 * enough.
 */
struct egorstream_checked egorstream_check(const uint8_t *file, size_t file_length,
                                           const uint8_t *table, size_t table_length);

/*
 * What egorstream_write and egorstream_make answer: 0, 0 and the file's length; egorstream_show: 0, 0 and
 * the text's; or a refusal's number and place, and 0.
 */
struct egorstream_written {
    uint32_t number;
    uint32_t place;
    uint64_t length;
};

/*
 * Writes the chain file of a chain at the front of a buffer. What it writes is read back as the same
 * chain, with the edges in the order given.
 *
 * states, start          The number of states, 1 to 64, which are numbered from 0, and the one that
 *                        the chain starts in.
 * goals                  Bit i says whether state i is a goal.
 * denominators           One for each state, 1 to 2,147,483,647.
 * edges                  Four numbers for each edge: from, to, weight, reward; 1 to 4,096 edges. The
 *                        weights of a state's edges add up to its denominator. Rewards are 0 to
 *                        65,535; that of a goal's edge does not count. Earlier versions took three
 *                        numbers for each edge. Such a list is not always refused: it may pass for
 *                        another chain.
 * order                  Each state once: the order in which states are removed.
 * rewards                One for each state, 0 to 65,535; that of a goal does not count.
 * buffer                 Room for the file, at any alignment. EGORSTREAM_MOST_FILE_LENGTH bytes are
 *                        enough for every chain.
 *
 * Each length counts numbers, that of the buffer bytes. The tables are only read; they are aligned as
 * uint64_t is, and do not overlap the buffer. A null pointer with length 0 is an empty table or buffer.
 *
 * The number is one of 1 to 11, the least that applies; its place is a state, the index of an edge or
 * a position of the order, each from 0, or else 0; of an edge's reward it is 64 plus the edge's
 * index. On a refusal the whole buffer stays as it was. Otherwise bytes past the file stay as they
 * were.
 *
 * It needs a stack of a few kilobytes and keeps nothing between calls.
 */
struct egorstream_written egorstream_write(uint64_t states, uint64_t start, uint64_t goals,
                                           const uint64_t *denominators, size_t denominators_length,
                                           const uint64_t *edges, size_t edges_length,
                                           const uint64_t *order, size_t order_length,
                                           const uint64_t *rewards, size_t rewards_length,
                                           uint8_t *buffer, size_t buffer_length);

/*
 * Writes the text of a chain file at the front of a buffer, as docs/FILES.md says: one line for each state
 * and each edge. The chain need not be well formed, so that what the other functions refuse by 3 to 10 can
 * be looked at: state i stands on line i + 4, and of a chain of n states the order on line n + 4, edge e on
 * line n + 5 + e.
 *
 * file, file_length      The bytes of a chain file, as above.
 * buffer, buffer_length  EGORSTREAM_SHOWN_ROOM bytes or more, at any alignment. It does not overlap the
 *                        file.
 *
 * The buffer's length is tested first, then the file. On a refusal the whole buffer stays as it was.
 * Otherwise bytes past the text, which ends in no zero, stay as they were. Its tables are its own, as those
 * of egorstream_chance are: the same stack is enough.
 */
struct egorstream_written egorstream_show(const uint8_t *file, size_t file_length, uint8_t *buffer,
                                          size_t buffer_length);

/*
 * Writes the chain file of a text at the front of a buffer. Of a shown text whose chain is well formed it
 * makes the file again, byte for byte, or for a file of version 1 that of version 2.
 *
 * text, text_length      A text as egorstream_show writes it. Empty lines, and lines that begin with #, are
 *                        passed over. It is only read. A null pointer with length 0 is an empty text.
 * buffer, buffer_length  EGORSTREAM_MOST_FILE_LENGTH bytes or more, at any alignment. It does not overlap
 *                        the text.
 *
 * The buffer's length is tested first, then the text's, then its lines, then the chain: the least of 3 to
 * 10 that applies, with its place as egorstream_write has it. On a refusal the whole buffer stays as it was.
 * Otherwise bytes past the file stay as they were. Its tables are its own: the same stack is enough.
 */
struct egorstream_written egorstream_make(const uint8_t *text, size_t text_length, uint8_t *buffer,
                                          size_t buffer_length);

/* What egorstream_copies answers: 0, 0 and the chance in lowest terms; or a refusal's number and place, 0 and 0. */
struct egorstream_planned {
    uint32_t number;
    uint32_t place;
    uint64_t numerator;
    uint64_t denominator;
};

/*
 * Finds the chance that a job loses all its copies before its finish: egorstream_copies as an exact fraction, or
 * EGORSTREAM_NO_FIT where it has no room, which is common; egorstream_plan_near as egorstream_near does, always.
 *
 * copies                 1 to 32, else EGORSTREAM_COPIES_WRONG.
 * loss, rebuild, finish  1 to 1,000,000, which are compared with each other, else EGORSTREAM_PLAN_WEIGHT_WRONG at
 *                        0, 1 or 2. With k copies left a loss counts k times and leaves one copy less; a rebuild
 *                        adds one where some are missing; the finish ends the job well.
 *
 * With the same weights, more copies have a strictly smaller chance. The copies are tested first, then the
 * weights; but for a weight's, a refusal's place is 0.
 */
struct egorstream_planned egorstream_copies(uint64_t copies, uint64_t loss, uint64_t rebuild, uint64_t finish);
struct egorstream_nearness egorstream_plan_near(uint64_t copies, uint64_t loss, uint64_t rebuild, uint64_t finish);

#ifdef __cplusplus
}
#endif

#endif
