/*
 * Treatments of twelve fields (document 02, F-7), tested: every field is inserted, read, updated, compared as part of a key and merged; an edit
 * that fills a delta; and the lengths of before, with eight fields. Run by tools/clients.
 */
#include <stdio.h>
#include <string.h>

#include "herd.h"

enum { GROUP = 1, COW = 2, TREATMENT = 3, PEN = 4, RELATIONS = 4 };

/* The fields of a treatment from the ninth on, those of its keys; the eight before them are plain. */
enum { RECEIPT = 9, DRUG = 10, MINUTE = 11, PATIENT = 12 };

static const herd_schema SCHEMA = {
    RELATIONS,
    HERD_RELATION(HERD_FIELD(1), 0, HERD_PLAIN),
    HERD_RELATION(HERD_FIELD(1) | HERD_FIELD(2), 0, HERD_PLAIN, HERD_ABORT(GROUP)),
    HERD_RELATION(HERD_FIELD(9), HERD_FIELD(10) | HERD_FIELD(11) | HERD_FIELD(12), HERD_PLAIN, HERD_PLAIN, HERD_PLAIN, HERD_PLAIN,
                  HERD_PLAIN, HERD_PLAIN, HERD_PLAIN, HERD_PLAIN, HERD_PLAIN, HERD_PLAIN, HERD_PLAIN, HERD_PROPAGATION(COW)),
    /* A pen has a group by abort in every field. */
    HERD_RELATION(0, 0, HERD_ABORT(GROUP), HERD_ABORT(GROUP), HERD_ABORT(GROUP), HERD_ABORT(GROUP), HERD_ABORT(GROUP), HERD_ABORT(GROUP),
                  HERD_ABORT(GROUP), HERD_ABORT(GROUP), HERD_ABORT(GROUP), HERD_ABORT(GROUP), HERD_ABORT(GROUP), HERD_ABORT(GROUP)),
};

enum { RECORDS = 20, WORDS = HERD_TABLE_WORDS(RECORDS) };

static uint64_t robot[WORDS], office[WORDS];
static herd_delta delta;
static int failed;

static void expect(int fact, const char *what)
{
    if (!fact) {
        printf("treatments: not so: %s\n", what);
        failed = 1;
    }
}

static void figures(void)
{
    const uint64_t *block = SCHEMA + HERD_BLOCK(TREATMENT);
    expect(HERD_FIELDS == 12 && HERD_BLOCK_WORDS == 16 && HERD_SCHEMA_WORDS == 129, "the figures of a schema");
    expect(HERD_RECORD_WORDS == 28 && HERD_VALUE_WORDS == 4 && HERD_STAMP_WORDS == 16, "the figures of a record");
    expect(HERD_DELTA_RECORDS == 13 && HERD_DELTA_WORDS == 380, "the figures of a delta");
    expect(herd_schema_check(SCHEMA, HERD_SCHEMA_WORDS) == HERD_DONE, "a schema of twelve fields is not broken");
    expect(block[HERD_COUNT_WORD] == 12 && block[HERD_KIND_WORDS + 11] == 34, "the twelfth kind stands in its word");
    expect(block[HERD_KEY_WORDS] == 256 && block[HERD_KEY_WORDS + 1] == 3584 && block[HERD_BLOCK_WORDS - 1] == 0,
           "the masks stand behind the twelve kinds");
}

static void start(void)
{
    expect(herd_start(robot, WORDS, 1) == HERD_DONE && herd_start(office, WORDS, 2) == HERD_DONE, "tables are started");
}

static uint64_t insert(uint64_t *own, size_t relation, const uint64_t *values, size_t count, herd_label *label)
{
    return herd_insert(SCHEMA, HERD_SCHEMA_WORDS, own, WORDS, delta, HERD_DELTA_WORDS, relation, values, count, label);
}

/* A record that is to be inserted; its label. */
static herd_label entered(uint64_t *own, size_t relation, const uint64_t *values)
{
    herd_label label;
    size_t count = (size_t)SCHEMA[HERD_BLOCK(relation) + HERD_COUNT_WORD];
    expect(insert(own, relation, values, count, &label) == HERD_DONE, "a record is inserted");
    return label;
}

static herd_label cow(uint64_t *own, uint64_t tag)
{
    const uint64_t values[2] = {tag, HERD_NONE};
    return entered(own, COW, values);
}

/* The answer for a treatment with this receipt, drug 70 in minute 800, and this cow. */
static uint64_t treat(uint64_t *own, uint64_t receipt, herd_label patient)
{
    const uint64_t values[HERD_FIELDS] = {31, 32, 33, 34, 35, 36, 37, 38, receipt, 70, 800, patient};
    herd_label label;
    return insert(own, TREATMENT, values, HERD_FIELDS, &label);
}

static uint64_t update(uint64_t *own, size_t index, size_t field, uint64_t value)
{
    return herd_update(SCHEMA, HERD_SCHEMA_WORDS, own, WORDS, delta, HERD_DELTA_WORDS, index, field, value);
}

static uint64_t merge(uint64_t *own, const uint64_t *other, size_t words)
{
    uint64_t changed;
    expect(herd_merge(SCHEMA, HERD_SCHEMA_WORDS, own, WORDS, other, words, &changed) == HERD_DONE, "a table is merged");
    return changed;
}

/* Whether the record of an index is shown. */
static int is_shown(const uint64_t *table, size_t index)
{
    uint8_t marks[RECORDS];
    uint64_t shown;
    expect(herd_marks(SCHEMA, HERD_SCHEMA_WORDS, table, WORDS, marks, RECORDS, &shown) == HERD_DONE, "the list is made");
    return marks[index - 1] == 1;
}

/* Whether a record has these twelve values. */
static int has(const uint64_t *table, size_t index, const uint64_t *values)
{
    uint64_t at;
    return herd_values(table, WORDS, index, &at) == HERD_DONE && memcmp(table + at, values, HERD_FIELDS * sizeof *values) == 0;
}

/* The stamp of a field. */
static herd_label stamp(const uint64_t *table, size_t index, size_t field)
{
    return table[HERD_RECORD(index) + HERD_STAMP_WORDS + field - 1];
}

/* Two cows, 1.1 and 2.1, and a treatment of the first, at indices 1 to 3. */
static void values(void)
{
    uint64_t expected[HERD_FIELDS] = {31, 32, 33, 34, 35, 36, 37, 38, 1, 70, 800, HERD_LABEL(1, 1)};
    size_t field;
    herd_label label = cow(robot, 40);
    cow(robot, 41);
    expect(treat(robot, 1, label) == HERD_DONE && has(robot, 3, expected), "twelve values are inserted and given back");
    for (field = 1; field <= HERD_FIELDS; field++)
        expect(stamp(robot, 3, field) == HERD_LABEL(3, 1), "each of the twelve has the new label as its stamp");
    expect(insert(robot, TREATMENT, expected, HERD_FIELDS - 1, &label) == HERD_FIELD_OR_VALUE, "eleven values are too few");
    expect(herd_table_check(SCHEMA, HERD_SCHEMA_WORDS, robot, WORDS) == HERD_DONE, "the table is well-formed");

    for (field = 1; field < PATIENT; field++) {
        expected[field - 1] += 100;
        expect(update(robot, 3, field, expected[field - 1]) == HERD_DONE, "a plain field is updated");
    }
    expected[PATIENT - 1] = HERD_LABEL(2, 1);
    expect(update(robot, 3, PATIENT, HERD_LABEL(2, 1)) == HERD_DONE && has(robot, 3, expected), "the twelfth field is updated");
    expect(delta[HERD_USED_WORD] == 1 && stamp(delta, 1, PATIENT) == HERD_LABEL(15, 1), "the delta has the twelfth register");
    for (field = 1; field < PATIENT; field++)
        expect(stamp(delta, 1, field) == HERD_NONE, "and no other");
    expect(update(robot, 3, PATIENT, 1) == HERD_FIELD_OR_VALUE, "a cow is named by a label");
    expect(update(robot, 3, PATIENT, HERD_LABEL(9, 9)) == HERD_TARGET_NOT_SHOWN, "a cow that is named is shown");
    expect(update(robot, 3, 0, 5) == HERD_FIELD_OR_VALUE, "there is no field 0");
    expect(update(robot, 3, HERD_FIELDS + 1, 5) == HERD_FIELD_OR_VALUE, "there is no thirteenth field");
}

/* Treatments of two cows beside each other: the keys are the ninth field, and the tenth to twelfth together. */
static void keys(void)
{
    herd_label first, second;
    start();
    first = cow(robot, 40);
    second = cow(robot, 41);
    expect(treat(robot, 1, first) == HERD_DONE && treat(robot, 2, second) == HERD_DONE, "the same drug for two cows");
    expect(treat(robot, 2, HERD_NONE) == HERD_CONFLICT, "a receipt is taken");
    expect(treat(robot, 3, second) == HERD_CONFLICT, "drug, minute and cow are taken");
    expect(treat(robot, 3, HERD_NONE) == HERD_DONE && treat(robot, 4, HERD_NONE) == HERD_DONE, "without a cow they are no key");
    expect(update(robot, 4, PATIENT, first) == HERD_CONFLICT, "a cow that makes two keys alike is refused");
    expect(update(robot, 4, RECEIPT, 1) == HERD_CONFLICT, "so is a receipt");
    expect(update(robot, 4, DRUG, 71) == HERD_DONE && update(robot, 4, PATIENT, first) == HERD_DONE, "with another drug she is not");
    expect(update(robot, 4, DRUG, 70) == HERD_CONFLICT, "and then the drug is refused");
    expect(update(robot, 4, MINUTE, 801) == HERD_DONE && update(robot, 4, DRUG, 70) == HERD_DONE, "but in another minute");
}

/* One treatment entered on both sides: the older is shown. Then each side updates another field of it. */
static void merges(void)
{
    uint64_t expected[HERD_FIELDS] = {31, 32, 33, 34, 35, 36, 37, 38, 9, 70, 900, HERD_NONE}, verdict;
    herd_label label;
    start();
    label = expected[PATIENT - 1] = cow(robot, 40);
    expect(merge(office, robot, WORDS) == 1, "the office takes in the cow");
    expect(treat(robot, 1, label) == HERD_DONE && treat(office, 2, label) == HERD_DONE, "a treatment is entered on both sides");
    expect(merge(office, robot, WORDS) == 1 && merge(robot, office, WORDS) == 1, "each side takes in the other's treatment");
    expect(is_shown(robot, 2) && !is_shown(robot, 3) && !is_shown(office, 2) && is_shown(office, 3), "the older one is shown");
    expect(update(robot, 2, RECEIPT, 9) == HERD_DONE && update(office, 3, MINUTE, 900) == HERD_DONE, "each side updates a field of it");
    expect(merge(robot, delta, HERD_DELTA_WORDS) == 1 && merge(office, robot, WORDS) == 1, "a delta and a table are merged");
    expect(has(robot, 2, expected) && has(office, 3, expected), "both fields are as they were updated, on both sides");
    expect(is_shown(robot, 3) && is_shown(office, 2), "with another minute it leaves the key to the other");
    expect(herd_compare(SCHEMA, HERD_SCHEMA_WORDS, robot, WORDS, office, WORDS, &verdict) == HERD_DONE && verdict == HERD_ALIKE,
           "the tables are alike");
    expect(herd_delete(SCHEMA, HERD_SCHEMA_WORDS, robot, WORDS, delta, HERD_DELTA_WORDS, 1) == HERD_DONE, "the cow is deleted");
    expect(!is_shown(robot, 2) && !is_shown(robot, 3), "her treatments leave the list with her");
}

/* A pen of twelve groups that were deleted elsewhere: with a second one all are redone, and the delta is full. */
static void pens(void)
{
    herd_label groups[HERD_FIELDS];
    uint64_t at;
    start();
    for (at = 0; at < HERD_FIELDS; at++)
        groups[at] = entered(office, GROUP, &at);
    merge(robot, office, WORDS);
    entered(robot, PEN, groups);
    for (at = 1; at <= HERD_FIELDS; at++)
        expect(herd_delete(SCHEMA, HERD_SCHEMA_WORDS, office, WORDS, delta, HERD_DELTA_WORDS, at) == HERD_DONE, "a group is deleted");
    expect(merge(robot, office, WORDS) == HERD_FIELDS && is_shown(robot, 1), "deleted groups stay with their pen");
    entered(robot, PEN, groups);
    expect(delta[HERD_USED_WORD] == HERD_DELTA_RECORDS, "a second pen changes as many records as a delta holds");
    expect(merge(office, delta, HERD_DELTA_WORDS) == HERD_DELTA_RECORDS && is_shown(office, 1), "they come back by the delta");
}

/* The lengths with eight fields: a schema of 97 words, a delta of 196, a table of 16 + 20N. */
static void lengths(void)
{
    enum { SEVEN = HERD_OLD_TABLE_WORDS(7) };
    const uint64_t name = 12;
    herd_label label;
    uint64_t changed, table[SEVEN] = {0};
    size_t records;
    start();
    expect(herd_schema_check(SCHEMA, HERD_OLD_SCHEMA_WORDS) == HERD_LENGTH_OR_INDEX, "a schema of 97 words is refused");
    expect(herd_insert(SCHEMA, HERD_SCHEMA_WORDS, robot, WORDS, delta, HERD_OLD_DELTA_WORDS, GROUP, &name, 1, &label)
               == HERD_LENGTH_OR_INDEX,
           "a delta of 196 words is not written");
    expect(herd_merge(SCHEMA, HERD_SCHEMA_WORDS, robot, WORDS, delta, HERD_OLD_DELTA_WORDS, &changed) == HERD_LENGTH_OR_INDEX, "nor merged");
    for (records = 0; HERD_OLD_TABLE_WORDS(records) <= WORDS; records++) {
        uint64_t expected = records % 7 == 0 ? HERD_DONE : HERD_LENGTH_OR_INDEX;
        expect(herd_start(office, HERD_OLD_TABLE_WORDS(records), 2) == expected, "every seventh length is one of both shapes");
    }
    table[HERD_REPLICA_WORD] = 3;
    expect(SEVEN == HERD_TABLE_WORDS(5) && herd_table_check(SCHEMA, HERD_SCHEMA_WORDS, table, SEVEN) == HERD_DONE,
           "an empty table of seven old records is one of five");
}

int main(void)
{
    figures();
    start();
    values();
    keys();
    merges();
    pens();
    lengths();
    return failed;
}
