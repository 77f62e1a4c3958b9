/*
 * A robot and the office, each with its own table: they edit while the link is down, compare, merge both ways, and show the same list.
 *
 *   cc -std=c99 -Iinclude examples/c/barn.c target/staticlib/libherd.a -o barn && ./barn
 */
#include <inttypes.h>
#include <stdio.h>
#include <stdlib.h>

#include "herd.h"

enum { GROUP = 1, COW = 2, MILKING = 3 };

static const herd_schema FARM = {
    3,
    /* group: name; key name */
    HERD_RELATION(HERD_FIELD(1), 0, HERD_PLAIN),
    /* cow: tag, group; key tag */
    HERD_RELATION(HERD_FIELD(1), 0, HERD_PLAIN, HERD_ABORT(GROUP)),
    /* milking: cow, grams */
    HERD_RELATION(0, 0, HERD_PROPAGATION(COW), HERD_PLAIN),
};

enum { RECORDS = 64, WORDS = HERD_TABLE_WORDS(RECORDS) };

/* No call of this program may be refused. */
static void must(const char *what, uint64_t answer)
{
    if (answer != HERD_DONE) {
        printf("%s: refused %" PRIu64 ": %s\n", what, answer, herd_answer_text(answer));
        exit(1);
    }
}

static herd_label insert(uint64_t *table, uint64_t *delta, size_t relation, uint64_t first, uint64_t second)
{
    const uint64_t values[2] = {first, second};
    size_t count = (size_t)FARM[HERD_BLOCK(relation) + HERD_COUNT_WORD];
    herd_label label;
    must("insert", herd_insert(FARM, HERD_SCHEMA_WORDS, table, WORDS, delta, HERD_DELTA_WORDS, relation, values, count, &label));
    return label;
}

/* The number of records that the merge changed or added. */
static uint64_t merge(uint64_t *own, const uint64_t *other, size_t other_words)
{
    uint64_t changed;
    must("merge", herd_merge(FARM, HERD_SCHEMA_WORDS, own, WORDS, other, other_words, &changed));
    return changed;
}

/* Merges a table that was received. Whether it brought news: only then the own table is sent on. */
static int brings_news(const char *name, uint64_t *own, const uint64_t *received)
{
    uint64_t changed = merge(own, received, WORDS);
    int news = changed != 0;
    printf("%s: changed %" PRIu64 ", %s\n", name, changed, news ? "sent on" : "not sent on");
    return news;
}

/* Compares two copies, as a technician does at the barn door: which one must take in the other. */
static void print_verdict(const uint64_t *robot, const uint64_t *office)
{
    uint64_t verdict;
    must("compare", herd_compare(FARM, HERD_SCHEMA_WORDS, robot, WORDS, office, WORDS, &verdict));
    printf("robot, office: %s\n", herd_verdict_text(verdict));
}

/* The index of the record with this label, 0 if the table does not hold it. */
static size_t find(const uint64_t *table, size_t relation, herd_label label)
{
    uint64_t index;
    must("lookup", herd_lookup(FARM, HERD_SCHEMA_WORDS, table, WORDS, relation, label, &index));
    return (size_t)index;
}

/* The next record of the shown list, 0 at its end. */
static size_t next(const uint64_t *table, const uint8_t *marks, uint64_t *place)
{
    uint64_t given;
    must("walk", herd_walk(FARM, HERD_SCHEMA_WORDS, table, WORDS, marks, RECORDS, place, &given));
    return (size_t)given;
}

static uint64_t mark(const uint64_t *table, uint8_t *marks)
{
    uint64_t shown;
    must("marks", herd_marks(FARM, HERD_SCHEMA_WORDS, table, WORDS, marks, RECORDS, &shown));
    return shown;
}

static const uint64_t *values_of(const uint64_t *table, size_t index)
{
    uint64_t first;
    must("values", herd_values(table, WORDS, index, &first));
    return table + first;
}

static void print_value(uint64_t kind, uint64_t value)
{
    if (kind == HERD_PLAIN)
        printf(" %" PRIu64, value);
    else if (value == HERD_NONE)
        printf(" -");
    else
        printf(" %" PRIu64 ".%" PRIu64, HERD_COUNTER(value), HERD_REPLICA(value));
}

/* The shown list: relation, label and values of each record. */
static void print_list(const char *name, const uint64_t *table)
{
    uint8_t marks[RECORDS];
    uint64_t place = 0;
    size_t index, field;
    printf("%s: shown %" PRIu64 "\n", name, mark(table, marks));
    while ((index = next(table, marks, &place)) != 0) {
        const uint64_t *record = table + HERD_RECORD(index);
        const uint64_t *values = values_of(table, index);
        const uint64_t *block = FARM + HERD_BLOCK(record[HERD_RELATION_WORD]);
        herd_label label = record[HERD_LABEL_WORD];
        printf("%" PRIu64 " %" PRIu64 ".%" PRIu64, record[HERD_RELATION_WORD], HERD_COUNTER(label), HERD_REPLICA(label));
        for (field = 0; field < block[HERD_COUNT_WORD]; field++)
            print_value(block[HERD_KIND_WORDS + field], values[field]);
        printf("\n");
    }
}

/* Whether both tables show the same list. */
static int agree(const uint64_t *left, const uint64_t *right)
{
    uint8_t left_marks[RECORDS], right_marks[RECORDS];
    uint64_t left_place = 0, right_place = 0;
    size_t i, j, field;
    if (mark(left, left_marks) != mark(right, right_marks))
        return 0;
    for (;;) {
        i = next(left, left_marks, &left_place);
        j = next(right, right_marks, &right_place);
        if (i == 0 || j == 0)
            return i == j;
        if (left[HERD_RECORD(i) + HERD_RELATION_WORD] != right[HERD_RECORD(j) + HERD_RELATION_WORD])
            return 0;
        if (left[HERD_RECORD(i) + HERD_LABEL_WORD] != right[HERD_RECORD(j) + HERD_LABEL_WORD])
            return 0;
        for (field = 0; field < HERD_FIELDS; field++)
            if (values_of(left, i)[field] != values_of(right, j)[field])
                return 0;
    }
}

int main(void)
{
    static uint64_t robot[WORDS], office[WORDS];
    static herd_delta delta;
    herd_label group, cow;

    if (!herd_version_fits()) {
        printf("the library is of version %" PRIu64 ", and the header of version %d\n", herd_version(), HERD_VERSION);
        return 1;
    }
    must("schema", herd_schema_check(FARM, HERD_SCHEMA_WORDS));
    must("start", herd_start(robot, WORDS, 1));
    must("start", herd_start(office, WORDS, 2));

    /* The office sets up the herd, and the robot takes in its table. */
    group = insert(office, delta, GROUP, 12, 0);
    cow = insert(office, delta, COW, 40, group);
    merge(robot, office, WORDS);

    /* The link is down. Both insert a cow with tag 41; the office renames the group. */
    insert(robot, delta, MILKING, cow, 9000);
    insert(robot, delta, COW, 41, group);
    insert(office, delta, COW, 41, HERD_NONE);
    must("update", herd_update(FARM, HERD_SCHEMA_WORDS, office, WORDS, delta, HERD_DELTA_WORDS, find(office, GROUP, group), 1, 14));

    /* The link is back: merge both ways, until a merge brings no news. The older cow 41 keeps the tag. */
    print_verdict(robot, office);
    while (brings_news("robot", robot, office) && brings_news("office", office, robot))
        continue;
    print_verdict(robot, office);
    print_list("robot", robot);
    print_list("office", office);
    if (!agree(robot, office)) {
        printf("the lists differ\n");
        return 1;
    }

    /* The office deletes cow 40, and sends the delta alone. The cow's milking leaves the list with it. */
    must("delete", herd_delete(FARM, HERD_SCHEMA_WORDS, office, WORDS, delta, HERD_DELTA_WORDS, find(office, COW, cow)));
    print_verdict(robot, office);
    merge(robot, delta, HERD_DELTA_WORDS);
    print_list("robot", robot);
    print_list("office", office);
    if (!agree(robot, office)) {
        printf("the lists differ\n");
        return 1;
    }
    printf("the lists agree\n");
    return 0;
}
