/*
 * A loser blocks nobody (document 02, F-5), tested with cows of the herd book, whose keys are ear tag and transponder: copies that took
 * them in in different orders list alike, and a cow that is dropped hides none. Run by tools/clients.
 */
#include <stdio.h>

#include "herdbook.h"

enum { COWS = 3, WORDS = HERD_TABLE_WORDS(COWS) };

/* The tables of replicas 1 to 3, with a cow each, and a copy that takes them in. */
static uint64_t robots[COWS][WORDS], copy[WORDS];
static herd_delta delta;
static int failed;

static void expect(int fact, const char *what)
{
    if (!fact) {
        printf("losers: not so: %s\n", what);
        failed = 1;
    }
}

static uint64_t enter(uint64_t *table, uint64_t tag, uint64_t transponder)
{
    herd_label label;
    return book_enter_cow(table, WORDS, delta, HERD_DELTA_WORDS, tag, transponder, HERD_NONE, &label);
}

static void take_in(size_t robot)
{
    uint64_t changed;
    expect(herd_merge(HERDBOOK_SCHEMA, HERD_SCHEMA_WORDS, copy, WORDS, robots[robot], WORDS, &changed) == HERD_DONE, "a cow is taken in");
}

/* The index of the cow that this robot entered: all have counter 1. */
static size_t index_of(size_t robot)
{
    size_t index = 1;
    while (index < COWS && copy[HERD_RECORD(index) + HERD_LABEL_WORD] != HERD_LABEL(1, robot + 1))
        index++;
    return index;
}

/* Which of the cows are listed: 1 for that of replica 1, 2 and 4 for the others. */
static unsigned listed(void)
{
    uint8_t marks[COWS];
    uint64_t shown;
    unsigned found = 0;
    size_t robot;
    expect(herd_marks(HERDBOOK_SCHEMA, HERD_SCHEMA_WORDS, copy, WORDS, marks, COWS, &shown) == HERD_DONE, "the list is made");
    for (robot = 0; robot < COWS; robot++)
        if (marks[index_of(robot) - 1] == 1)
            found |= 1u << robot;
    return found;
}

/* The cows taken in in this order; then the oldest is struck off. */
static void merged(size_t first, size_t second, size_t third)
{
    expect(herd_start(copy, WORDS, 9) == HERD_DONE, "a copy is started");
    take_in(first);
    take_in(second);
    take_in(third);
    expect(listed() == (1 | 4), "the first and the third cow are listed");
    expect(book_strike_cow(copy, WORDS, delta, HERD_DELTA_WORDS, index_of(0)) == HERD_DONE, "the first cow is struck off");
    expect(listed() == 2, "then the second cow alone is listed");
}

int main(void)
{
    static const uint64_t tags[COWS] = {40, 40, 41}, transponders[COWS] = {7, 8, 8};
    size_t robot;
    for (robot = 0; robot < COWS; robot++) {
        expect(herd_start(robots[robot], WORDS, robot + 1) == HERD_DONE, "a robot is started");
        expect(enter(robots[robot], tags[robot], transponders[robot]) == HERD_DONE, "a cow is entered");
    }
    merged(0, 1, 2);
    merged(0, 2, 1);
    merged(1, 0, 2);
    merged(1, 2, 0);
    merged(2, 0, 1);
    merged(2, 1, 0);

    /* With the first two alone the second is dropped, and its transponder is taken all the same. */
    expect(herd_start(copy, WORDS, 9) == HERD_DONE, "a copy is started");
    take_in(0);
    take_in(1);
    expect(enter(copy, 41, 8) == HERD_CONFLICT, "a key of a cow that is dropped is taken");
    return failed;
}
