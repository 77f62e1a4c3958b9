/*
 * A robot that is sealed with version 3.1.0 keeps old tables, of eight fields. Its delta arrives at the office, is widened and merged, and
 * the office's table goes back narrowed.
 *
 *   cc -std=c99 -Iinclude examples/c/old.c target/staticlib/libherd.a -o old && ./old
 */
#include <inttypes.h>
#include <stdio.h>
#include <stdlib.h>
#include <string.h>

#include "herd.h"

enum { GROUP = 1, COW = 2, MILKING = 3 };

static const herd_schema FARM = {
    3,
    /* group: name; key name */
    HERD_RELATION(HERD_FIELD(1), 0, HERD_PLAIN),
    /* cow: tag, group; key tag */
    HERD_RELATION(HERD_FIELD(1), 0, HERD_PLAIN, HERD_ABORT(GROUP)),
    /* milking: cow, grams */
    HERD_RELATION(0, 0, HERD_PROPAGATION(COW), HERD_PLAIN),
};

/* Nine fields, which the old form lacks. */
static const herd_schema TREATMENTS = {
    1,
    HERD_RELATION(0, 0, HERD_PLAIN, HERD_PLAIN, HERD_PLAIN, HERD_PLAIN, HERD_PLAIN, HERD_PLAIN, HERD_PLAIN, HERD_PLAIN, HERD_PLAIN),
};

enum { RECORDS = 20, WORDS = HERD_TABLE_WORDS(RECORDS), OLD_WORDS = HERD_OLD_TABLE_WORDS(RECORDS) };

/* The version of the sealed robot, and the first one with tables of twelve fields. */
enum { SEALED = 30100, TWELVE_FIELDS = 40000 };

/* What arrives: the version of the sender, which the length does not tell, and the words of a table or a delta. */
struct message {
    uint64_t version;
    const uint64_t *words;
    size_t count;
};

/* The sealed robot's delta as it was sent, of nine records, of which one is used: milking 3.1 of cow 2.2. */
static const uint64_t MILKED[HERD_OLD_DELTA_WORDS] = {
    /* replica, clock, used, 0; the first record of each relation; four zeros */
    1, 3, 1, 0, 0, 0, 1, 0, 0, 0, 0, 0, 0, 0, 0, 0,
    /* next, relation, label, flag; eight values; eight stamps */
    0, MILKING, HERD_LABEL(3, 1), 0, HERD_LABEL(2, 2), 9000, 0, 0, 0, 0, 0, 0, HERD_LABEL(3, 1), HERD_LABEL(3, 1), 0, 0, 0, 0, 0, 0,
};

static uint64_t old_schema[HERD_OLD_SCHEMA_WORDS], old_table[OLD_WORDS];

/* This call may not be refused. */
static void must(const char *what, uint64_t answer)
{
    if (answer != HERD_DONE) {
        printf("%s: refused %" PRIu64 ": %s\n", what, answer, herd_answer_text(answer));
        exit(1);
    }
}

/* This call is to be refused. */
static void refused(const char *what, uint64_t answer)
{
    if (answer == HERD_DONE) {
        printf("%s: not refused\n", what);
        exit(1);
    }
    printf("%s: refused %" PRIu64 ": %s\n", what, answer, herd_answer_text(answer));
}

/* The schema that the sealed robot was built with: FARM, turned back with a table without records. */
static void turn_schema_back(void)
{
    uint64_t none[HERD_TABLE_WORDS(0)], old_none[HERD_OLD_TABLE_WORDS(0)];
    must("start", herd_start(none, HERD_TABLE_WORDS(0), 1));
    must("narrow", herd_narrow(FARM, HERD_SCHEMA_WORDS, none, HERD_TABLE_WORDS(0), old_schema, HERD_OLD_SCHEMA_WORDS, old_none,
                               HERD_OLD_TABLE_WORDS(0)));
}

/* Widens an old message into a table with room for WORDS words; the words that it has then. Its schema must be the own one. */
static size_t widen(struct message old, uint64_t *table)
{
    static herd_schema schema;
    size_t records = (old.count - HERD_HEADER_WORDS) / HERD_OLD_RECORD_WORDS;
    if (old.count < HERD_HEADER_WORDS || records > RECORDS)
        must("widen", HERD_LENGTH_OR_INDEX);
    must("widen", herd_widen(old_schema, HERD_OLD_SCHEMA_WORDS, old.words, old.count, schema, HERD_SCHEMA_WORDS, table,
                             HERD_TABLE_WORDS(records)));
    if (memcmp(schema, FARM, sizeof schema) != 0) {
        printf("widen: another schema\n");
        exit(1);
    }
    printf("widened: %d words to %d, room for %d records\n", (int)old.count, (int)HERD_TABLE_WORDS(records), (int)records);
    return HERD_TABLE_WORDS(records);
}

/* Takes in a message; one of an old version is widened first. */
static void take_in(uint64_t *own, struct message message)
{
    static uint64_t table[WORDS];
    uint64_t changed;
    if (message.version < TWELVE_FIELDS) {
        message.count = widen(message, table);
        message.words = table;
    }
    must("merge", herd_merge(FARM, HERD_SCHEMA_WORDS, own, WORDS, message.words, message.count, &changed));
    printf("merged: changed %" PRIu64 "\n", changed);
}

/* The records of an old table, in the order in which they stand: relation, label and the first two values, a reference as a number. */
static void print_old(const uint64_t *table)
{
    uint64_t at;
    for (at = 0; at < table[HERD_USED_WORD]; at++) {
        const uint64_t *record = table + HERD_OLD_TABLE_WORDS(at);
        const uint64_t *values = record + HERD_VALUE_WORDS;
        printf("%" PRIu64 " %" PRIu64 ".%" PRIu64 ": %" PRIu64 " %" PRIu64 "\n", record[HERD_RELATION_WORD],
               HERD_COUNTER(record[HERD_LABEL_WORD]), HERD_REPLICA(record[HERD_LABEL_WORD]), values[0], values[1]);
    }
}

/* The office's table for the sealed robot, and widened again. */
static void send_back(const uint64_t *office)
{
    static uint64_t again[WORDS];
    struct message sent = {SEALED, old_table, OLD_WORDS};
    must("narrow", herd_narrow(FARM, HERD_SCHEMA_WORDS, office, WORDS, old_schema, HERD_OLD_SCHEMA_WORDS, old_table, OLD_WORDS));
    printf("narrowed: %d words to %d\n", (int)WORDS, (int)OLD_WORDS);
    print_old(old_table);
    widen(sent, again);
    printf("and back: %s words\n", memcmp(again, office, sizeof again) == 0 ? "the same" : "other");
}

int main(void)
{
    static uint64_t office[WORDS];
    static herd_delta delta;
    const struct message milked = {SEALED, MILKED, HERD_OLD_DELTA_WORDS};
    uint64_t group[1] = {12}, cow[2] = {40, HERD_NONE}, changed;
    herd_label label;

    if (!herd_version_fits()) {
        printf("the library is of version %" PRIu64 ", and the header of version %d\n", herd_version(), HERD_VERSION);
        return 1;
    }
    /* The office enters group 1.2 and cow 2.2. */
    must("start", herd_start(office, WORDS, 2));
    must("group", herd_insert(FARM, HERD_SCHEMA_WORDS, office, WORDS, delta, HERD_DELTA_WORDS, GROUP, group, 1, &label));
    cow[1] = label;
    must("cow", herd_insert(FARM, HERD_SCHEMA_WORDS, office, WORDS, delta, HERD_DELTA_WORDS, COW, cow, 2, &label));

    /* The sealed robot has milked her. Its delta is merged only converted. */
    turn_schema_back();
    refused("as it came", herd_merge(FARM, HERD_SCHEMA_WORDS, office, WORDS, MILKED, HERD_OLD_DELTA_WORDS, &changed));
    take_in(office, milked);
    take_in(office, milked);

    send_back(office);

    /* A relation of nine fields has no place in the old form, even without records. */
    must("start", herd_start(office, WORDS, 2));
    refused("treatments",
            herd_narrow(TREATMENTS, HERD_SCHEMA_WORDS, office, WORDS, old_schema, HERD_OLD_SCHEMA_WORDS, old_table, OLD_WORDS));
    return 0;
}
