/*
 * The herd book of a barn: a robot and the office, each with its own table, in the barn's own words.
 *
 *   cc -std=c99 -Iinclude examples/c/book.c target/staticlib/libherdbook.a target/staticlib/libherd.a -o book && ./book
 */
#include <inttypes.h>
#include <stdio.h>
#include <stdlib.h>

#include "herdbook.h"

enum { RECORDS = 64, WORDS = HERD_TABLE_WORDS(RECORDS) };

static uint64_t robot[WORDS], office[WORDS];
static herd_delta delta; /* what the last edit changed */

/* This call may not be refused. */
static void must(const char *what, uint64_t answer)
{
    if (answer != HERD_DONE) {
        printf("%s: refused %" PRIu64 ": %s\n", what, answer, herd_answer_text(answer));
        exit(1);
    }
}

/* This call is to be refused. */
static void refused(const char *what, uint64_t answer)
{
    if (answer == HERD_DONE) {
        printf("%s: not refused\n", what);
        exit(1);
    }
    printf("%s: refused %" PRIu64 ": %s\n", what, answer, herd_answer_text(answer));
}

/* Merges a table or a delta that was received. */
static void merge(uint64_t *own, const uint64_t *received, size_t words)
{
    uint64_t changed;
    must("merge", herd_merge(HERDBOOK_SCHEMA, HERD_SCHEMA_WORDS, own, WORDS, received, words, &changed));
}

/* The index of a record, 0 if the table does not hold it. */
static size_t find(const uint64_t *table, size_t kind, herd_label label)
{
    uint64_t index;
    must("lookup", herd_lookup(HERDBOOK_SCHEMA, HERD_SCHEMA_WORDS, table, WORDS, kind, label, &index));
    return (size_t)index;
}

/* The index of a shown milking, 0 if there is none. */
static size_t find_milking(const uint64_t *table, herd_label label)
{
    uint64_t index;
    must("find", book_find_milking(table, WORDS, label, &index));
    printf("the milking: index %" PRIu64 "\n", index);
    return (size_t)index;
}

/* A label, or a dash for none. */
static void print_label(herd_label label)
{
    if (label == HERD_NONE)
        printf("-");
    else
        printf("%" PRIu64 ".%" PRIu64, HERD_COUNTER(label), HERD_REPLICA(label));
}

/* A shown record: its kind, its label and its values. */
static void print_record(const uint64_t *table, size_t index)
{
    static const char *const names[] = {"", "group", "cow", "robot", "milking", "cleaning", "treatment"};
    const uint64_t *record = table + HERD_RECORD(index);
    const uint64_t *block = HERDBOOK_SCHEMA + HERD_BLOCK(record[HERD_RELATION_WORD]);
    size_t field;
    printf("%s ", names[record[HERD_RELATION_WORD]]);
    print_label(record[HERD_LABEL_WORD]);
    printf(":");
    for (field = 0; field < block[HERD_COUNT_WORD]; field++) {
        printf(" ");
        if (block[HERD_KIND_WORDS + field] == HERD_PLAIN)
            printf("%" PRIu64, record[HERD_VALUE_WORDS + field]);
        else
            print_label(record[HERD_VALUE_WORDS + field]);
    }
    printf("\n");
}

static void print_list(const char *name, const uint64_t *table)
{
    uint8_t marks[RECORDS];
    uint64_t shown, place = 0, given;
    must("marks", herd_marks(HERDBOOK_SCHEMA, HERD_SCHEMA_WORDS, table, WORDS, marks, RECORDS, &shown));
    printf("%s: shown %" PRIu64 "\n", name, shown);
    do {
        must("walk", herd_walk(HERDBOOK_SCHEMA, HERD_SCHEMA_WORDS, table, WORDS, marks, RECORDS, &place, &given));
        if (given != 0)
            print_record(table, (size_t)given);
    } while (given != 0);
}

int main(void)
{
    herd_label group, milker, cow, milking, cleaning, treatment, other;
    size_t index;

    if (!herd_version_fits()) {
        printf("the library is of version %" PRIu64 ", and the header of version %d\n", herd_version(), HERD_VERSION);
        return 1;
    }
    must("start", herd_start(robot, WORDS, 1));
    must("start", herd_start(office, WORDS, 2));

    /* The office enters group 12, robot 1 and cow 4711 with transponder 982, and the robot takes in its table. */
    must("group", book_enter_group(office, WORDS, delta, HERD_DELTA_WORDS, 12, &group));
    must("robot", book_enter_robot(office, WORDS, delta, HERD_DELTA_WORDS, 1, &milker));
    must("cow", book_enter_cow(office, WORDS, delta, HERD_DELTA_WORDS, 4711, 982, group, &cow));
    merge(robot, office, WORDS);

    /* The link is down. The robot milks her (12,400 grams, 38.5 degrees, minute 300), is cleaned, and meets a cow without a group. */
    must("milking", book_enter_milking(robot, WORDS, delta, HERD_DELTA_WORDS, cow, milker, 12400, 385, 300, &milking));
    must("cleaning", book_enter_cleaning(robot, WORDS, delta, HERD_DELTA_WORDS, milker, 310, 322, &cleaning));
    must("cow", book_enter_cow(robot, WORDS, delta, HERD_DELTA_WORDS, 4712, 983, HERD_NONE, &other));
    /* The office withholds her milk, and gives transponder 983 to a cow of its own. */
    must("treatment", book_enter_treatment(office, WORDS, delta, HERD_DELTA_WORDS, cow, 400, 7400, &treatment));
    must("cow", book_enter_cow(office, WORDS, delta, HERD_DELTA_WORDS, 4713, 983, group, &other));

    /* The link is back. Of the two cows with transponder 983 the older one is listed, by the label: 5.2 is before 6.1. */
    merge(robot, office, WORDS);
    merge(office, robot, WORDS);
    print_list("robot", robot);
    print_list("office", office);

    /* The office corrects the grams of the milking, which it knows by its label. */
    index = find_milking(office, milking);
    must("grams", book_change_milking(office, WORDS, delta, HERD_DELTA_WORDS, index, HERDBOOK_MILKING_GRAMS, 12300));
    merge(robot, delta, HERD_DELTA_WORDS);
    print_record(robot, find_milking(robot, milking));

    /* A transponder that is taken; a milking that is no cow; a group with cows in it. */
    refused("a second cow 982", book_enter_cow(office, WORDS, delta, HERD_DELTA_WORDS, 4714, 982, HERD_NONE, &other));
    refused("a milking as a cow", book_strike_cow(office, WORDS, delta, HERD_DELTA_WORDS, index));
    refused("the group", book_strike_group(office, WORDS, delta, HERD_DELTA_WORDS, find(office, HERDBOOK_GROUP, group)));

    /* Cow 4711 is struck off; her milking and her treatment leave the list with her. */
    must("strike", book_strike_cow(office, WORDS, delta, HERD_DELTA_WORDS, find(office, HERDBOOK_COW, cow)));
    find_milking(office, milking);
    print_list("office", office);
    return 0;
}
