/*
 * herd_lookup, tested from C: records that are known, shown or not, and that are not; numbers that are no labels; damage that is read and
 * damage that is not; each refusal with index 0; and that no table is written. Run by tools/clients.
 */
#include <stdio.h>
#include <string.h>

#include "herd.h"

enum { GROUP = 1, COW = 2, MILKING = 3, RELATIONS = 3 };
enum { RECORDS = 7, WORDS = HERD_TABLE_WORDS(RECORDS) };

static const herd_schema SCHEMA = {
    RELATIONS,
    HERD_RELATION(HERD_FIELD(1), 0, HERD_PLAIN),
    HERD_RELATION(HERD_FIELD(1), 0, HERD_PLAIN, HERD_ABORT(GROUP)),
    HERD_RELATION(0, 0, HERD_PROPAGATION(COW), HERD_PLAIN),
};

/* Group 1.1 has index 1, the cows 2.1, 3.1, 4.1 and 5.1 have indices 2 to 5; there are no milkings, and room for two records. */
enum { FIRST_COW = 2, LAST_COW = 5 };

static uint64_t table[WORDS];
static herd_delta delta;
static int failed;

static void expect(int fact, const char *what)
{
    if (!fact) {
        printf("lookup: not so: %s\n", what);
        failed = 1;
    }
}

static void insert(size_t relation, uint64_t first, uint64_t second)
{
    const uint64_t values[2] = {first, second};
    herd_label label;
    uint64_t answer = herd_insert(SCHEMA, HERD_SCHEMA_WORDS, table, WORDS, delta, HERD_DELTA_WORDS, relation, values,
                                  (size_t)SCHEMA[HERD_BLOCK(relation) + HERD_COUNT_WORD], &label);
    expect(answer == HERD_DONE, "a record is inserted");
}

/* A lookup must give this answer and this index, and leave the table as it is. */
static void looked_up(size_t relation, herd_label label, uint64_t expected, uint64_t place, const char *what)
{
    static uint64_t before[WORDS];
    uint64_t index = 77;
    uint64_t answer;
    memcpy(before, table, sizeof before);
    answer = herd_lookup(SCHEMA, HERD_SCHEMA_WORDS, table, WORDS, relation, label, &index);
    expect(answer == expected && index == place, what);
    expect(memcmp(before, table, sizeof before) == 0, "no table is written");
}

static void known(size_t relation, herd_label label, uint64_t place, const char *what)
{
    looked_up(relation, label, HERD_DONE, place, what);
}

static void unknown(size_t relation, herd_label label, const char *what)
{
    looked_up(relation, label, HERD_DONE, 0, what);
}

static void damaged(size_t relation, herd_label label, const char *what)
{
    looked_up(relation, label, HERD_OWN_NOT_WELL_FORMED, 0, what);
}

static void labels(void)
{
    uint64_t at;
    known(GROUP, HERD_LABEL(1, 1), 1, "the only record of a relation is known");
    for (at = FIRST_COW; at <= LAST_COW; at++)
        known(COW, HERD_LABEL(at, 1), at, "each cow is known by her label");
    unknown(COW, HERD_LABEL(1, 1), "a label before the first is not known, although it is a group's");
    unknown(COW, HERD_LABEL(3, 2), "a label between two is not known");
    unknown(COW, HERD_LABEL(6, 1), "a label after the last is not known");
    unknown(COW, HERD_LABEL(HERD_LARGEST_COUNTER, HERD_LARGEST_REPLICA), "the largest label is not known");
    unknown(MILKING, HERD_LABEL(2, 1), "in a relation without records no label is known");
}

/* Numbers that are no labels. */
static void numbers(void)
{
    unknown(COW, HERD_NONE, "an empty reference is not known");
    unknown(COW, 1, "a number without a counter is not known");
    unknown(COW, HERD_LABEL(2, 0), "a number without a replica is not known");
    unknown(COW, HERD_LABEL(2, 1) + (UINT64_C(1) << 48), "a number with a label in its last 48 bits is not known");
    unknown(COW, UINT64_MAX, "the largest number is not known");
}

/* A record that is deleted is not shown, and is known. */
static void hidden(void)
{
    uint8_t marks[RECORDS];
    uint64_t shown;
    expect(herd_delete(SCHEMA, HERD_SCHEMA_WORDS, table, WORDS, delta, HERD_DELTA_WORDS, 3) == HERD_DONE, "a cow is deleted");
    expect(herd_marks(SCHEMA, HERD_SCHEMA_WORDS, table, WORDS, marks, RECORDS, &shown) == HERD_DONE && marks[2] == 0, "she is not shown");
    known(COW, HERD_LABEL(3, 1), 3, "a deleted cow is known");
    known(COW, HERD_LABEL(4, 1), 4, "a cow after a deleted one is known");
    expect(herd_delete(SCHEMA, HERD_SCHEMA_WORDS, table, WORDS, delta, HERD_DELTA_WORDS, 3) == HERD_NOT_SHOWN, "she is not deleted again");
}

/* Writes a word in place of another, which is given back. */
static uint64_t put(size_t at, uint64_t word)
{
    uint64_t old = table[at];
    table[at] = word;
    return old;
}

/* A wrong word of the third cow: the walk reads her for her own label, for one before it and for later ones, and not for older cows. */
static void damage_of_cow(size_t word, uint64_t wrong)
{
    size_t at = HERD_RECORD(4) + word;
    uint64_t old = put(at, wrong);
    known(COW, HERD_LABEL(3, 1), 3, "damage behind the last record read is not seen");
    unknown(COW, HERD_LABEL(2, 9), "damage behind a larger label is not seen");
    damaged(COW, HERD_LABEL(3, 2), "damage of the larger label at which the walk stops is seen");
    damaged(COW, HERD_LABEL(4, 1), "damage of the record is seen");
    damaged(COW, HERD_LABEL(5, 1), "damage of a record on the way is seen");
    damaged(COW, UINT64_MAX, "damage on the way to the end is seen");
    known(GROUP, HERD_LABEL(1, 1), 1, "damage of another chain is not seen");
    looked_up(RELATIONS + 1, HERD_LABEL(4, 1), HERD_RELATION_OR_REPLICA, 0, "without a relation no record is read");
    put(at, old);
}

static void damages(void)
{
    uint64_t old;
    damage_of_cow(HERD_NEXT_WORD, LAST_COW + 1);
    damage_of_cow(HERD_NEXT_WORD, UINT64_MAX);
    damage_of_cow(HERD_RELATION_WORD, GROUP);
    damage_of_cow(HERD_RELATION_WORD, 0);
    damage_of_cow(HERD_LABEL_WORD, HERD_LABEL(3, 1));
    damage_of_cow(HERD_LABEL_WORD, HERD_LABEL(6, 1));
    damage_of_cow(HERD_LABEL_WORD, UINT64_MAX);
    damage_of_cow(HERD_FLAG_WORD, HERD_LARGEST_FLAG + 1);
    damage_of_cow(HERD_VALUE_WORDS + 1, 1);
    damage_of_cow(HERD_VALUE_WORDS + 1, HERD_LABEL(6, 1));
    damage_of_cow(HERD_VALUE_WORDS + 2, 1);
    damage_of_cow(HERD_STAMP_WORDS, HERD_NONE);
    damage_of_cow(HERD_STAMP_WORDS + 1, HERD_LABEL(6, 1));

    old = put(HERD_RECORD(LAST_COW) + HERD_NEXT_WORD, FIRST_COW);
    known(COW, HERD_LABEL(5, 1), LAST_COW, "a chain that comes back is not seen before its end");
    damaged(COW, HERD_LABEL(6, 1), "a chain that comes back is seen at its end");
    put(HERD_RECORD(LAST_COW) + HERD_NEXT_WORD, old);
    put(HERD_RECORD(RECORDS) + HERD_LABEL_WORD, 1);
    unknown(COW, HERD_LABEL(6, 1), "damage above the used records is not seen");
    put(HERD_RECORD(RECORDS) + HERD_LABEL_WORD, 0);
}

/* The header is read for any relation, and its damage is told before a wrong relation. */
static void headers(void)
{
    size_t at, relation;
    uint64_t old;
    for (relation = 0; relation <= RELATIONS + 1; relation++) {
        for (at = 0; at < HERD_HEADER_WORDS; at++) {
            old = put(at, UINT64_MAX);
            damaged(relation, HERD_LABEL(2, 1), "damage of the header is seen");
            put(at, old);
        }
        put(HERD_FIRST_WORDS + RELATIONS, 1);
        damaged(relation, HERD_LABEL(2, 1), "a chain above the relations is seen");
        put(HERD_FIRST_WORDS + RELATIONS, 0);
    }
}

static void expect_refused(const uint64_t *schema, size_t schema_words, size_t table_words, size_t relation, uint64_t expected,
                           const char *what)
{
    uint64_t index = 77;
    uint64_t answer = herd_lookup(schema, schema_words, table, table_words, relation, HERD_LABEL(2, 1), &index);
    expect(answer == expected && index == 0, what);
}

/* The relation is wrong first, then the table damaged, then the schema, then the lengths: each of them is told before those of before. */
static void refusals(void)
{
    herd_schema broken;
    memcpy(broken, SCHEMA, sizeof broken);
    expect_refused(SCHEMA, HERD_SCHEMA_WORDS, WORDS, 0, HERD_RELATION_OR_REPLICA, "relation 0 is refused");
    expect_refused(SCHEMA, HERD_SCHEMA_WORDS, WORDS, RELATIONS + 1, HERD_RELATION_OR_REPLICA, "a relation above R is refused");
    expect_refused(SCHEMA, HERD_SCHEMA_WORDS, WORDS, SIZE_MAX, HERD_RELATION_OR_REPLICA, "the largest number is refused as a relation");
    table[HERD_REPLICA_WORD] = 0;
    expect_refused(SCHEMA, HERD_SCHEMA_WORDS, WORDS, 0, HERD_OWN_NOT_WELL_FORMED, "a damaged table is refused");
    broken[0] = 0;
    expect_refused(broken, HERD_SCHEMA_WORDS, WORDS, 0, HERD_SCHEMA_BROKEN, "a broken schema is refused");
    expect_refused(broken, HERD_SCHEMA_WORDS - 1, WORDS, 0, HERD_LENGTH_OR_INDEX, "a short schema is refused");
    expect_refused(broken, HERD_SCHEMA_WORDS, WORDS - 1, 0, HERD_LENGTH_OR_INDEX, "a table that ends within a record is refused");
    expect_refused(broken, HERD_SCHEMA_WORDS, HERD_HEADER_WORDS - 1, 0, HERD_LENGTH_OR_INDEX, "a short header is refused");
    expect_refused(broken, 0, 0, 0, HERD_LENGTH_OR_INDEX, "slices without words are refused");
}

int main(void)
{
    uint64_t cow;
    expect(herd_start(table, WORDS, 1) == HERD_DONE, "a table is started");
    unknown(COW, HERD_LABEL(1, 1), "in a started table no label is known");
    insert(GROUP, 12, 0);
    for (cow = FIRST_COW; cow <= LAST_COW; cow++)
        insert(COW, 40 + cow, HERD_LABEL(1, 1));
    labels();
    numbers();
    hidden();
    damages();
    headers();
    refusals();
    return failed;
}
