/*
 * What include/herdbook.h has, tested: the schema with its kinds and fields, and each call beside the library's own under the schema, on a
 * copy of the table. Run by tools/clients. With an argument it prints the words of the schema alone, a line each, for the comparison with
 * those of the library and of the Rust crate.
 */
#include <inttypes.h>
#include <stdio.h>
#include <string.h>

#include "herdbook.h"

enum { RECORDS = 8, WORDS = HERD_TABLE_WORDS(RECORDS), KINDS = HERDBOOK_TREATMENT };

/* A table and a delta. */
struct side {
    uint64_t table[WORDS];
    herd_delta delta;
};

static struct side own, copy;
static int failed;

static void expect(int fact, const char *what)
{
    if (!fact) {
        printf("book: not so: %s\n", what);
        failed = 1;
    }
}

/* The arguments that stand for the lent own table and delta. */
#define LENT(side) (side).table, WORDS, (side).delta, HERD_DELTA_WORDS

static int same(void)
{
    return memcmp(&own, &copy, sizeof own) == 0;
}

typedef uint64_t change(uint64_t *, size_t, uint64_t *, size_t, size_t, size_t, uint64_t);
typedef uint64_t strike(uint64_t *, size_t, uint64_t *, size_t, size_t);

/* The calls that change and strike off, by kind. */
static change *const changes[] = {book_change_group,   book_change_cow,      book_change_robot,
                                  book_change_milking, book_change_cleaning, book_change_treatment};
static strike *const strikes[] = {book_strike_group,   book_strike_cow,      book_strike_robot,
                                  book_strike_milking, book_strike_cleaning, book_strike_treatment};

static void schema(void)
{
    static const uint64_t fields[] = {HERDBOOK_GROUP_NUMBER,   HERDBOOK_COW_GROUP,    HERDBOOK_ROBOT_NUMBER,
                                      HERDBOOK_MILKING_MINUTE, HERDBOOK_CLEANING_END, HERDBOOK_TREATMENT_LAST};
    size_t kind;
    expect(herd_schema_check(HERDBOOK_SCHEMA, HERD_SCHEMA_WORDS) == HERD_DONE, "the schema is not broken");
    expect(HERDBOOK_SCHEMA[0] == KINDS, "the schema has the kinds");
    for (kind = 1; kind <= KINDS; kind++)
        expect(HERDBOOK_SCHEMA[HERD_BLOCK(kind) + HERD_COUNT_WORD] == fields[kind - 1], "a kind has its fields");
}

/* A record that was entered, with this answer and label: the library does the same on the copy. */
static herd_label entered(uint64_t answer, herd_label label, size_t kind, const uint64_t *values)
{
    herd_label other;
    size_t count = (size_t)HERDBOOK_SCHEMA[HERD_BLOCK(kind) + HERD_COUNT_WORD];
    expect(herd_insert(HERDBOOK_SCHEMA, HERD_SCHEMA_WORDS, LENT(copy), kind, values, count, &other) == answer, "an answer of enter");
    expect(other == label && same(), "a record is entered as by the library");
    expect(answer == HERD_DONE && herd_table_check(HERDBOOK_SCHEMA, HERD_SCHEMA_WORDS, own.table, WORDS) == HERD_DONE,
           "an entered record is well-formed");
    return label;
}

/* A record of each kind; its index is its kind. */
static void enter(void)
{
    uint64_t values[HERD_FIELDS] = {12};
    herd_label group, cow, robot, label;
    uint64_t answer = book_enter_group(LENT(own), 12, &label);
    group = entered(answer, label, HERDBOOK_GROUP, values);
    values[0] = 4711, values[1] = 982, values[2] = group;
    answer = book_enter_cow(LENT(own), 4711, 982, group, &label);
    cow = entered(answer, label, HERDBOOK_COW, values);
    values[0] = 1;
    answer = book_enter_robot(LENT(own), 1, &label);
    robot = entered(answer, label, HERDBOOK_ROBOT, values);
    values[0] = cow, values[1] = robot, values[2] = 12400, values[3] = 385, values[4] = 300;
    answer = book_enter_milking(LENT(own), cow, robot, 12400, 385, 300, &label);
    entered(answer, label, HERDBOOK_MILKING, values);
    values[0] = robot, values[1] = 310, values[2] = 322;
    answer = book_enter_cleaning(LENT(own), robot, 310, 322, &label);
    entered(answer, label, HERDBOOK_CLEANING, values);
    values[0] = cow, values[1] = 400, values[2] = 7400;
    answer = book_enter_treatment(LENT(own), cow, 400, 7400, &label);
    entered(answer, label, HERDBOOK_TREATMENT, values);
}

static void other_kinds(void)
{
    size_t kind, index;
    for (kind = 1; kind <= KINDS; kind++)
        for (index = 1; index <= KINDS; index++)
            if (index != kind) {
                expect(changes[kind - 1](LENT(own), index, 1, 5) == HERD_NOT_SHOWN, "a record of another kind is not changed");
                expect(strikes[kind - 1](LENT(own), index) == HERD_NOT_SHOWN, "a record of another kind is not struck off");
            }
    expect(same(), "a refused call changes no word");
}

static void find(void)
{
    uint64_t index;
    size_t kind;
    for (kind = 1; kind <= KINDS; kind++) {
        uint64_t expected = kind == HERDBOOK_MILKING ? kind : 0;
        herd_label label = own.table[HERD_RECORD(kind) + HERD_LABEL_WORD];
        expect(book_find_milking(own.table, WORDS, label, &index) == HERD_DONE && index == expected, "the milking is found by its label");
    }
    expect(book_find_milking(own.table, WORDS, HERD_NONE, &index) == HERD_DONE && index == 0, "no milking has no label");
    expect(book_find_milking(own.table, WORDS - 1, HERD_NONE, &index) == HERD_LENGTH_OR_INDEX && index == 0, "a wrong length is refused");
    expect(book_find_milking(copy.delta, HERD_DELTA_WORDS, HERD_NONE, &index) == HERD_DONE && index == 0, "a delta is a table");
}

/* Every field becomes 0, a reference too, so that each record can be struck off then; both as by the library. */
static void edit(void)
{
    size_t kind, field;
    for (kind = 1; kind <= KINDS; kind++)
        for (field = 0; field <= HERDBOOK_SCHEMA[HERD_BLOCK(kind) + HERD_COUNT_WORD] + 1; field++) {
            uint64_t answer = changes[kind - 1](LENT(own), kind, field, 0);
            expect(herd_update(HERDBOOK_SCHEMA, HERD_SCHEMA_WORDS, LENT(copy), kind, field, 0) == answer && same(),
                   "a field is changed as by the library");
        }
    for (kind = KINDS; kind >= 1; kind--) {
        uint64_t answer = strikes[kind - 1](LENT(own), kind);
        expect(answer == HERD_DONE && herd_delete(HERDBOOK_SCHEMA, HERD_SCHEMA_WORDS, LENT(copy), kind) == answer && same(),
               "a record is struck off as by the library");
    }
}

int main(int count, char **arguments)
{
    size_t at;
    (void)arguments;
    if (count > 1) {
        for (at = 0; at < HERD_SCHEMA_WORDS; at++)
            printf("%" PRIu64 "\n", HERDBOOK_SCHEMA[at]);
        return 0;
    }
    schema();
    expect(herd_start(own.table, WORDS, 1) == HERD_DONE, "a table is started");
    copy = own;
    enter();
    other_kinds();
    find();
    edit();
    return failed;
}
