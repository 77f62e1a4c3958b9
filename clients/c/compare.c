/*
 * herd_compare, tested from C: each verdict in both orders, what plays no part in it, each refusal with verdict 0, and that no table is written.
 * Run by tools/clients.
 */
#include <stdio.h>
#include <string.h>

#include "herd.h"

enum { GROUP = 1, RECORDS = 4, MORE = 6, WORDS = HERD_TABLE_WORDS(RECORDS), MORE_WORDS = HERD_TABLE_WORDS(MORE) };

static const herd_schema SCHEMA = {1, HERD_RELATION(HERD_FIELD(1), 0, HERD_PLAIN)};

/* The office has room for more records than the robot. */
static uint64_t robot[WORDS], office[MORE_WORDS];
static herd_delta delta;
static int failed;

static void expect(int fact, const char *what)
{
    if (!fact) {
        printf("compare: not so: %s\n", what);
        failed = 1;
    }
}

static void insert(uint64_t *own, size_t own_words, uint64_t name)
{
    herd_label label;
    uint64_t answer = herd_insert(SCHEMA, HERD_SCHEMA_WORDS, own, own_words, delta, HERD_DELTA_WORDS, GROUP, &name, 1, &label);
    expect(answer == HERD_DONE, "a group is inserted");
}

static void merge(uint64_t *own, size_t own_words, const uint64_t *other, size_t other_words)
{
    uint64_t changed;
    expect(herd_merge(SCHEMA, HERD_SCHEMA_WORDS, own, own_words, other, other_words, &changed) == HERD_DONE, "a table is merged");
}

static uint64_t verdict_on(const uint64_t *first, size_t first_words, const uint64_t *second, size_t second_words)
{
    uint64_t verdict;
    uint64_t answer = herd_compare(SCHEMA, HERD_SCHEMA_WORDS, first, first_words, second, second_words, &verdict);
    expect(answer == HERD_DONE, "tables are compared");
    return verdict;
}

/* The verdict on robot and office, and on office and robot; both tables stay as they are. */
static void expect_verdicts(uint64_t verdict, uint64_t exchanged, const char *what)
{
    static uint64_t first[WORDS], second[MORE_WORDS];
    memcpy(first, robot, sizeof first);
    memcpy(second, office, sizeof second);
    expect(verdict_on(robot, WORDS, office, MORE_WORDS) == verdict, what);
    expect(verdict_on(office, MORE_WORDS, robot, WORDS) == exchanged, what);
    expect(memcmp(first, robot, sizeof first) == 0 && memcmp(second, office, sizeof second) == 0, "no table is written");
}

/* Robot and office have other replica numbers and capacities throughout, and at the end their records stand in another order. */
static void verdicts(void)
{
    expect_verdicts(HERD_ALIKE, HERD_ALIKE, "started tables are alike");
    insert(office, MORE_WORDS, 12);
    expect_verdicts(HERD_FIRST_BEHIND, HERD_SECOND_BEHIND, "a table that lacks a record is behind");
    insert(robot, WORDS, 13);
    expect_verdicts(HERD_NEITHER, HERD_NEITHER, "of tables with records of their own neither contains the other");
    merge(robot, WORDS, office, MORE_WORDS);
    expect_verdicts(HERD_SECOND_BEHIND, HERD_FIRST_BEHIND, "a table that took in the other is not behind");
    merge(office, MORE_WORDS, robot, WORDS);
    expect_verdicts(HERD_ALIKE, HERD_ALIKE, "tables that took in each other are alike");
    office[HERD_CLOCK_WORD]++;
    expect_verdicts(HERD_FIRST_BEHIND, HERD_SECOND_BEHIND, "a table with a smaller clock is behind");
    office[HERD_RECORD(1) + HERD_FLAG_WORD]++;
    expect_verdicts(HERD_FIRST_BEHIND, HERD_SECOND_BEHIND, "a table with a smaller flag is behind");
    robot[HERD_RECORD(1) + HERD_VALUE_WORDS]++;
    expect_verdicts(HERD_NEITHER, HERD_NEITHER, "of a larger value and a larger flag neither contains the other");
}

/* Two full tables with records of their own: a merge has no room. */
static void full(void)
{
    uint64_t changed, name;
    for (name = 20; robot[HERD_USED_WORD] < RECORDS; name++)
        insert(robot, WORDS, name);
    for (name = 30; office[HERD_USED_WORD] < MORE; name++)
        insert(office, MORE_WORDS, name);
    expect(herd_merge(SCHEMA, HERD_SCHEMA_WORDS, office, MORE_WORDS, robot, WORDS, &changed) == HERD_FULL, "a full table has no room");
    expect_verdicts(HERD_NEITHER, HERD_NEITHER, "full tables are compared");
}

/* Arguments that are only read may overlap. */
static void overlaps(void)
{
    uint64_t group[HERD_TABLE_WORDS(2)];
    expect(verdict_on(office, MORE_WORDS, office, MORE_WORDS) == HERD_ALIKE, "a table is alike with itself");
    expect(herd_start(group, HERD_TABLE_WORDS(2), 7) == HERD_DONE, "a table is started");
    insert(group, HERD_TABLE_WORDS(2), 12);
    expect(verdict_on(group, HERD_TABLE_WORDS(2), group, HERD_TABLE_WORDS(1)) == HERD_ALIKE, "a table is alike with its used part");
    expect(verdict_on(group, HERD_TABLE_WORDS(2), delta, HERD_DELTA_WORDS) == HERD_ALIKE, "a delta is a table");
}

static void expect_refused(const uint64_t *schema, size_t schema_words, size_t first_words, size_t second_words, uint64_t expected,
                           const char *what)
{
    uint64_t verdict = 7;
    uint64_t answer = herd_compare(schema, schema_words, robot, first_words, office, second_words, &verdict);
    expect(answer == expected && verdict == 0, what);
}

/* The second table is damaged first, then the first, then the schema, then the lengths: each of them is told before those of before. */
static void refusals(void)
{
    herd_schema broken;
    memcpy(broken, SCHEMA, sizeof broken);
    office[HERD_REPLICA_WORD] = 0;
    expect_refused(SCHEMA, HERD_SCHEMA_WORDS, WORDS, MORE_WORDS, HERD_OTHER_NOT_WELL_FORMED, "a damaged second table is refused");
    robot[HERD_REPLICA_WORD] = 0;
    expect_refused(SCHEMA, HERD_SCHEMA_WORDS, WORDS, MORE_WORDS, HERD_OWN_NOT_WELL_FORMED, "a damaged first table is refused");
    broken[0] = 0;
    expect_refused(broken, HERD_SCHEMA_WORDS, WORDS, MORE_WORDS, HERD_SCHEMA_BROKEN, "a broken schema is refused");
    expect_refused(broken, HERD_SCHEMA_WORDS - 1, WORDS, MORE_WORDS, HERD_LENGTH_OR_INDEX, "a short schema is refused");
    expect_refused(broken, HERD_SCHEMA_WORDS, WORDS - 1, MORE_WORDS, HERD_LENGTH_OR_INDEX, "a short first table is refused");
    expect_refused(broken, HERD_SCHEMA_WORDS, WORDS, MORE_WORDS - 1, HERD_LENGTH_OR_INDEX, "a short second table is refused");
    expect_refused(broken, 0, 0, 0, HERD_LENGTH_OR_INDEX, "slices without words are refused");
}

int main(void)
{
    expect(herd_start(robot, WORDS, 1) == HERD_DONE && herd_start(office, MORE_WORDS, 2) == HERD_DONE, "tables are started");
    verdicts();
    full();
    overlaps();
    refusals();
    return failed;
}
