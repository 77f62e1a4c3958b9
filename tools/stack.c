/*
 * The stack that each call of libherd.a and libherdbook.a needs, measured. Each call runs on a stack of its own that is painted before; the
 * depth is what it overwrote. The tables have the most records. Prints the bytes of each call; exits with 1 if its header tells another
 * number than the bytes rounded up, or if one passes LIMIT.
 *
 * Run by tools/stack. With an argument it prints `CALL BYTES` lines alone, rounded up, for tools/stack --write.
 */
#define _XOPEN_SOURCE 600
#include <stdio.h>
#include <stdlib.h>
#include <string.h>
#include <ucontext.h>

#include "herdbook.h"

enum { LIMIT = 163840, STACK = 1 << 20, ROUND = 64 };

enum { N = HERD_MOST_RECORDS, WORDS = HERD_TABLE_WORDS(HERD_MOST_RECORDS) };

/* Groups, cows, milkings, and pens, which have a group by abort in every field. */
enum { GROUP = 1, COW = 2, MILKING = 3, PEN = 4 };

static herd_schema schema = {
    4,
    HERD_RELATION(HERD_FIELD(1), 0, HERD_PLAIN),
    HERD_RELATION(HERD_FIELD(1), HERD_FIELD(1) | HERD_FIELD(2), HERD_PLAIN, HERD_ABORT(GROUP)),
    HERD_RELATION(0, 0, HERD_PROPAGATION(COW), HERD_PLAIN),
};

enum { GROUPS = 64, PENS = 8, COWS = 1024 };

/* The last group, pen and cow. */
enum { LAST_GROUP = GROUPS, LAST_PEN = LAST_GROUP + PENS, LAST_COW = LAST_PEN + COWS };

enum { OLD_WORDS = HERD_OLD_TABLE_WORDS(HERD_MOST_RECORDS) };

static uint64_t own[WORDS], other[WORDS];
/* What is turned back, and the schema that it is turned into again; the table of that is the other one. */
static uint64_t old_schema[HERD_OLD_SCHEMA_WORDS], old_table[OLD_WORDS];
static herd_schema turned;
static herd_delta delta;
static uint8_t marks[N];
static uint64_t relation, values[HERD_FIELDS], value_count, record, field, value, place;
static uint64_t changed, verdict, label, shown, given, first;
static volatile uint64_t answer;

static void put(uint64_t *table, size_t index, uint64_t of, uint64_t counter, uint64_t flag, const uint64_t *from, size_t fields)
{
    uint64_t *words = table + HERD_RECORD(index);
    size_t at;
    words[HERD_RELATION_WORD] = of;
    words[HERD_LABEL_WORD] = HERD_LABEL(counter, 1);
    words[HERD_FLAG_WORD] = flag;
    for (at = 0; at < fields; at++) {
        words[HERD_VALUE_WORDS + at] = from[at];
        words[HERD_STAMP_WORDS + at] = HERD_LABEL(counter, 1);
    }
}

/* Puts a record at the end of its relation's chain, which ends at the index that `last` has for the relation. */
static void chain(uint64_t *table, uint64_t *last, uint64_t of, size_t index)
{
    if (last[of] == 0)
        table[HERD_FIRST_WORDS + of - 1] = index;
    else
        table[HERD_RECORD(last[of]) + HERD_NEXT_WORD] = index;
    last[of] = index;
}

/* The schema with so many fields of a pen. */
static void finish_schema(size_t fields)
{
    uint64_t *block = schema + HERD_BLOCK(PEN);
    size_t at;
    block[HERD_COUNT_WORD] = fields;
    for (at = 0; at < HERD_FIELDS; at++)
        block[HERD_KIND_WORDS + at] = at < fields ? HERD_ABORT(GROUP) : 0;
}

/* For what is made here no call may refuse. */
static void must(uint64_t told)
{
    if (told != HERD_DONE) {
        fprintf(stderr, "stack: %s\n", herd_answer_text(told));
        exit(2);
    }
}

/*
 * A table of `used` records with labels from `counter` + 1 on: groups, all deleted and held by others, pens, cows, then milkings.
 */
static void fill(uint64_t *table, size_t used, uint64_t counter, uint64_t replica)
{
    uint64_t last[HERD_MOST_RELATIONS + 1] = {0};
    size_t index;
    must(herd_start(table, WORDS, replica));
    for (index = 1; index <= used; index++) {
        uint64_t of = index <= LAST_GROUP ? GROUP : index <= LAST_PEN ? PEN : index <= LAST_COW ? COW : MILKING;
        uint64_t name = counter + index, from[HERD_FIELDS];
        size_t at;
        for (at = 0; at < HERD_FIELDS; at++)
            from[at] = HERD_LABEL(counter + 1 + (index + at) % GROUPS, 1);
        if (of == GROUP || of == COW)
            from[0] = name;
        if (of == MILKING) {
            from[0] = HERD_LABEL(counter + LAST_PEN + 1 + index % COWS, 1);
            from[1] = 9000;
        }
        put(table, index, of, name, of == GROUP, from, (size_t)schema[HERD_BLOCK(of) + HERD_COUNT_WORD]);
        chain(table, last, of, index);
    }
    table[HERD_CLOCK_WORD] = counter + used;
    table[HERD_USED_WORD] = used;
}

/* In a herd book the last group and the last robot are held by no record, and the others are struck off and held. */
enum { BOOK_GROUPS = 64, BOOK_ROBOTS = 8, BOOK_COWS = 1024 };

enum { LAST_BOOK_GROUP = BOOK_GROUPS, LAST_BOOK_ROBOT = LAST_BOOK_GROUP + BOOK_ROBOTS, LAST_BOOK_COW = LAST_BOOK_ROBOT + BOOK_COWS };

static uint64_t book_kind(size_t index)
{
    if (index <= LAST_BOOK_GROUP)
        return HERDBOOK_GROUP;
    if (index <= LAST_BOOK_ROBOT)
        return HERDBOOK_ROBOT;
    return index <= LAST_BOOK_COW ? HERDBOOK_COW : HERDBOOK_MILKING + index % 3;
}

/* The values of a record of a herd book: those of group, robot and cow are unique. */
static void book_values(uint64_t kind, size_t index, uint64_t *into)
{
    uint64_t group = HERD_LABEL(1 + index % (BOOK_GROUPS - 1), 1);
    uint64_t milker = HERD_LABEL(LAST_BOOK_GROUP + 1 + index % (BOOK_ROBOTS - 1), 1);
    uint64_t cow = HERD_LABEL(LAST_BOOK_ROBOT + 1 + index % BOOK_COWS, 1);
    size_t at;
    for (at = 0; at < HERD_FIELDS; at++)
        into[at] = index;
    if (kind == HERDBOOK_COW)
        into[HERDBOOK_COW_GROUP - 1] = group;
    if (kind == HERDBOOK_MILKING) {
        into[HERDBOOK_MILKING_COW - 1] = cow;
        into[HERDBOOK_MILKING_ROBOT - 1] = milker;
    }
    if (kind == HERDBOOK_CLEANING)
        into[HERDBOOK_CLEANING_ROBOT - 1] = milker;
    if (kind == HERDBOOK_TREATMENT)
        into[HERDBOOK_TREATMENT_COW - 1] = cow;
}

/* The own table as a herd book of `used` records: groups, robots, cows, then milkings, cleanings and treatments in turn. */
static void fill_book(size_t used)
{
    uint64_t last[HERD_MOST_RELATIONS + 1] = {0}, from[HERD_FIELDS];
    size_t index;
    must(herd_start(own, WORDS, 1));
    for (index = 1; index <= used; index++) {
        uint64_t kind = book_kind(index);
        uint64_t gone = index < LAST_BOOK_GROUP || (index > LAST_BOOK_GROUP && index < LAST_BOOK_ROBOT);
        book_values(kind, index, from);
        put(own, index, kind, index, gone, from, (size_t)HERDBOOK_SCHEMA[HERD_BLOCK(kind) + HERD_COUNT_WORD]);
        chain(own, last, kind, index);
    }
    own[HERD_CLOCK_WORD] = used;
    own[HERD_USED_WORD] = used;
    must(herd_table_check(HERDBOOK_SCHEMA, HERD_SCHEMA_WORDS, own, WORDS));
}

static void call_nothing(void)
{
    answer = HERD_DONE;
}

static void call_version(void)
{
    answer = herd_version() == HERD_VERSION ? HERD_DONE : HERD_LENGTH_OR_INDEX;
}

static void call_schema_check(void)
{
    answer = herd_schema_check(schema, HERD_SCHEMA_WORDS);
}

static void call_table_check(void)
{
    answer = herd_table_check(schema, HERD_SCHEMA_WORDS, own, WORDS);
}

static void call_start(void)
{
    answer = herd_start(own, WORDS, 1);
}

static void call_merge(void)
{
    answer = herd_merge(schema, HERD_SCHEMA_WORDS, own, WORDS, other, WORDS, &changed);
}

static void call_compare(void)
{
    answer = herd_compare(schema, HERD_SCHEMA_WORDS, own, WORDS, other, WORDS, &verdict);
}

static void call_lookup(void)
{
    answer = herd_lookup(schema, HERD_SCHEMA_WORDS, own, WORDS, relation, label, &given);
}

static void call_widen(void)
{
    answer = herd_widen(old_schema, HERD_OLD_SCHEMA_WORDS, old_table, OLD_WORDS, turned, HERD_SCHEMA_WORDS, other, WORDS);
}

static void call_narrow(void)
{
    answer = herd_narrow(schema, HERD_SCHEMA_WORDS, own, WORDS, old_schema, HERD_OLD_SCHEMA_WORDS, old_table, OLD_WORDS);
}

static void call_insert(void)
{
    answer = herd_insert(schema, HERD_SCHEMA_WORDS, own, WORDS, delta, HERD_DELTA_WORDS, relation, values, value_count, &label);
}

static void call_update(void)
{
    answer = herd_update(schema, HERD_SCHEMA_WORDS, own, WORDS, delta, HERD_DELTA_WORDS, record, field, value);
}

static void call_delete(void)
{
    answer = herd_delete(schema, HERD_SCHEMA_WORDS, own, WORDS, delta, HERD_DELTA_WORDS, record);
}

static void call_marks(void)
{
    answer = herd_marks(schema, HERD_SCHEMA_WORDS, own, WORDS, marks, N, &shown);
}

static void call_walk(void)
{
    answer = herd_walk(schema, HERD_SCHEMA_WORDS, own, WORDS, marks, N, &place, &given);
}

static void call_values(void)
{
    answer = herd_values(own, WORDS, record, &first);
}

/* The three calls of a kind; the values of a record that is entered follow its name. */
#define BOOK_CALLS(kind, ...)                                                                        \
    static void call_enter_##kind(void)                                                              \
    {                                                                                                \
        answer = book_enter_##kind(own, WORDS, delta, HERD_DELTA_WORDS, __VA_ARGS__, &label);        \
    }                                                                                                \
    static void call_change_##kind(void)                                                             \
    {                                                                                                \
        answer = book_change_##kind(own, WORDS, delta, HERD_DELTA_WORDS, record, field, value);      \
    }                                                                                                \
    static void call_strike_##kind(void)                                                             \
    {                                                                                                \
        answer = book_strike_##kind(own, WORDS, delta, HERD_DELTA_WORDS, record);                    \
    }

BOOK_CALLS(group, values[0])
BOOK_CALLS(cow, values[0], values[1], values[2])
BOOK_CALLS(robot, values[0])
BOOK_CALLS(milking, values[0], values[1], values[2], values[3], values[4])
BOOK_CALLS(cleaning, values[0], values[1], values[2])
BOOK_CALLS(treatment, values[0], values[1], values[2])

static void call_find_milking(void)
{
    answer = book_find_milking(own, WORDS, label, &given);
}

/* The bytes of a stack painted with `paint` that the call overwrote. */
static size_t depth(void (*call)(void), int paint)
{
    static unsigned char stack[STACK];
    static ucontext_t here, there;
    size_t low = 0;
    memset(stack, paint, STACK);
    if (getcontext(&there) != 0)
        exit(2);
    there.uc_stack.ss_sp = stack;
    there.uc_stack.ss_size = STACK;
    there.uc_link = &here;
    makecontext(&there, call, 0);
    if (swapcontext(&here, &there) != 0)
        exit(2);
    while (low < STACK && stack[low] == (unsigned char)paint)
        low++;
    return STACK - low;
}

struct measured {
    const char *name;
    void (*call)(void);
    size_t told, bytes;
};

#define BOOK_MEASURED(kind, KIND)                                            \
    {"book_enter_" #kind, call_enter_##kind, HERDBOOK_STACK_ENTER_##KIND, 0},    \
        {"book_change_" #kind, call_change_##kind, HERDBOOK_STACK_CHANGE_##KIND, 0}, \
        {"book_strike_" #kind, call_strike_##kind, HERDBOOK_STACK_STRIKE_##KIND, 0}

static struct measured calls[] = {
    {"herd_version", call_version, HERD_STACK_VERSION, 0},
    {"herd_schema_check", call_schema_check, HERD_STACK_SCHEMA_CHECK, 0},
    {"herd_table_check", call_table_check, HERD_STACK_TABLE_CHECK, 0},
    {"herd_start", call_start, HERD_STACK_START, 0},
    {"herd_merge", call_merge, HERD_STACK_MERGE, 0},
    {"herd_compare", call_compare, HERD_STACK_COMPARE, 0},
    {"herd_lookup", call_lookup, HERD_STACK_LOOKUP, 0},
    {"herd_widen", call_widen, HERD_STACK_WIDEN, 0},
    {"herd_narrow", call_narrow, HERD_STACK_NARROW, 0},
    {"herd_insert", call_insert, HERD_STACK_INSERT, 0},
    {"herd_update", call_update, HERD_STACK_UPDATE, 0},
    {"herd_delete", call_delete, HERD_STACK_DELETE, 0},
    {"herd_marks", call_marks, HERD_STACK_MARKS, 0},
    {"herd_walk", call_walk, HERD_STACK_WALK, 0},
    {"herd_values", call_values, HERD_STACK_VALUES, 0},
    BOOK_MEASURED(group, GROUP),
    BOOK_MEASURED(cow, COW),
    BOOK_MEASURED(robot, ROBOT),
    BOOK_MEASURED(milking, MILKING),
    BOOK_MEASURED(cleaning, CLEANING),
    BOOK_MEASURED(treatment, TREATMENT),
    {"book_find_milking", call_find_milking, HERDBOOK_STACK_FIND_MILKING, 0},
};

enum { CALLS = sizeof calls / sizeof calls[0] };

/* Runs a call under two paints and keeps the larger depth; afterwards the table is as it was. The call must give this answer. */
static void measure(void (*call)(void), uint64_t expected)
{
    static uint64_t kept[WORDS];
    size_t at, bytes = 0;
    uint64_t kept_place = place;
    memcpy(kept, own, sizeof own);
    for (at = 0; at < 2; at++) {
        size_t now = depth(call, at == 0 ? 0xa5 : 0x5a);
        if (now > bytes)
            bytes = now;
        memcpy(own, kept, sizeof own);
        place = kept_place;
    }
    for (at = 0; at < CALLS; at++)
        if (calls[at].call == call) {
            if (answer != expected) {
                fprintf(stderr, "stack: %s answered %d, and %d is expected\n", calls[at].name, (int)answer, (int)expected);
                exit(2);
            }
            if (bytes > calls[at].bytes)
                calls[at].bytes = bytes;
        }
}

static void measure_reads(void)
{
    size_t at;
    fill(own, N, 0, 1);
    measure(call_version, HERD_DONE);
    measure(call_schema_check, HERD_DONE);
    measure(call_table_check, HERD_DONE);
    measure(call_marks, HERD_DONE);
    call_marks();
    for (at = 0; at <= N; at += 512) {
        place = at;
        measure(call_walk, HERD_DONE);
    }
    memset(marks, 0, N);
    place = 0;
    measure(call_walk, HERD_DONE);
    record = N;
    measure(call_values, HERD_DONE);
    record = N + 1;
    measure(call_values, HERD_LENGTH_OR_INDEX);
    measure(call_start, HERD_DONE);
    own[HERD_RECORD(N) + HERD_NEXT_WORD] = 1;
    measure(call_table_check, HERD_OWN_NOT_WELL_FORMED);
    measure(call_marks, HERD_OWN_NOT_WELL_FORMED);
}

static void measure_merges(void)
{
    fill(own, N, 0, 1);
    fill(other, N, 0, 2);
    measure(call_merge, HERD_DONE);
    must(herd_start(own, WORDS, 1));
    measure(call_merge, HERD_DONE);
    fill(own, N / 2, 0, 1);
    measure(call_merge, HERD_DONE);
    fill(other, N, 7, 2);
    measure(call_merge, HERD_FULL);
    other[HERD_RECORD(N) + HERD_NEXT_WORD] = 1;
    measure(call_merge, HERD_OTHER_NOT_WELL_FORMED);
}

/* Compares the own and the other table, which must give this verdict. */
static void measure_verdict(uint64_t expected)
{
    measure(call_compare, HERD_DONE);
    if (verdict != expected) {
        fprintf(stderr, "stack: herd_compare gave verdict %d, and %d is expected\n", (int)verdict, (int)expected);
        exit(2);
    }
}

static void measure_compares(void)
{
    fill(own, N, 0, 1);
    fill(other, N, 0, 2);
    measure_verdict(HERD_ALIKE);
    /* The last record that is compared differs. */
    other[HERD_RECORD(LAST_PEN) + HERD_FLAG_WORD]++;
    measure_verdict(HERD_FIRST_BEHIND);
    own[HERD_RECORD(LAST_PEN) + HERD_FLAG_WORD] += 2;
    measure_verdict(HERD_SECOND_BEHIND);
    fill(other, N, 7, 2);
    measure_verdict(HERD_NEITHER);
    other[HERD_RECORD(N) + HERD_NEXT_WORD] = 1;
    measure(call_compare, HERD_OTHER_NOT_WELL_FORMED);
    own[HERD_RECORD(N) + HERD_NEXT_WORD] = 1;
    measure(call_compare, HERD_OWN_NOT_WELL_FORMED);
}

/* Looks up a label of the own table, which must give this index. */
static void measure_index(uint64_t of, uint64_t counter, uint64_t expected)
{
    relation = of;
    label = HERD_LABEL(counter, 1);
    measure(call_lookup, HERD_DONE);
    if (given != expected) {
        fprintf(stderr, "stack: herd_lookup gave index %d, and %d is expected\n", (int)given, (int)expected);
        exit(2);
    }
}

/* The chain of milkings is the longest, and pens have the most fields. */
static void measure_lookups(void)
{
    fill(own, N, 0, 1);
    measure_index(PEN, LAST_PEN, LAST_PEN);
    measure_index(MILKING, LAST_COW + 1, LAST_COW + 1);
    measure_index(MILKING, N, N);
    measure_index(MILKING, N + 1, 0);
    measure_index(MILKING, 1, 0);
    relation = PEN + 1;
    measure(call_lookup, HERD_RELATION_OR_REPLICA);
    relation = MILKING;
    label = HERD_LABEL(N, 1);
    own[HERD_RECORD(N) + HERD_NEXT_WORD] = N + 1;
    measure(call_lookup, HERD_OWN_NOT_WELL_FORMED);
    own[HERD_REPLICA_WORD] = 0;
    measure(call_lookup, HERD_OWN_NOT_WELL_FORMED);
}

/* Pens have as many fields as the old form has, and then too many. Afterwards the schema is as it was. */
static void measure_turnings(void)
{
    finish_schema(HERD_OLD_FIELDS);
    fill(own, N, 0, 1);
    measure(call_narrow, HERD_DONE);
    measure(call_widen, HERD_DONE);
    if (memcmp(turned, schema, sizeof turned) != 0 || memcmp(other, own, sizeof own) != 0) {
        fprintf(stderr, "stack: herd_narrow and herd_widen gave other words\n");
        exit(2);
    }
    old_table[HERD_OLD_TABLE_WORDS(N - 1) + HERD_NEXT_WORD] = 1;
    measure(call_widen, HERD_OWN_NOT_WELL_FORMED);
    old_schema[0] = 0;
    measure(call_widen, HERD_SCHEMA_BROKEN);
    finish_schema(HERD_FIELDS);
    measure(call_narrow, HERD_TOO_MANY_FIELDS);
    own[HERD_RECORD(N) + HERD_NEXT_WORD] = 1;
    measure(call_narrow, HERD_OWN_NOT_WELL_FORMED);
}

static void measure_edits(void)
{
    size_t at;
    fill(own, N - 1, 0, 1);
    /* A pen of deleted groups: as many records change as a delta holds. */
    relation = PEN;
    value_count = HERD_FIELDS;
    for (at = 0; at < HERD_FIELDS; at++)
        values[at] = HERD_LABEL(1 + at, 1);
    measure(call_insert, HERD_DONE);
    relation = COW;
    value_count = 2;
    values[0] = LAST_PEN + 1;
    measure(call_insert, HERD_CONFLICT);
    values[0] = 2;
    measure(call_insert, HERD_DONE);
    own[HERD_RECORD(1) + HERD_FLAG_WORD] = HERD_LARGEST_FLAG;
    values[1] = HERD_LABEL(1, 1);
    measure(call_insert, HERD_FLAG_AT_END);
    fill(own, N, 0, 1);
    measure(call_insert, HERD_FULL);
    /* A cow from one deleted group to another: three records change. */
    record = LAST_PEN + 1;
    field = 2;
    value = HERD_LABEL(40, 1);
    measure(call_update, HERD_DONE);
    field = 1;
    value = 2;
    measure(call_update, HERD_DONE);
    value = LAST_PEN + 2;
    measure(call_update, HERD_CONFLICT);
    measure(call_delete, HERD_DONE);
    /* A pen of deleted groups: as many records change as a delta holds. */
    record = LAST_GROUP + 1;
    measure(call_delete, HERD_DONE);
    record = 1;
    measure(call_delete, HERD_REFERENCED);
}

/* A kind of the herd book: its three calls, and whether its records may be held. */
struct kind {
    void (*enter)(void), (*change)(void), (*strike)(void);
    size_t relation, last;
    int held;
};

static const struct kind kinds[] = {
    {call_enter_group, call_change_group, call_strike_group, HERDBOOK_GROUP, LAST_BOOK_GROUP, 1},
    {call_enter_cow, call_change_cow, call_strike_cow, HERDBOOK_COW, LAST_BOOK_COW, 0},
    {call_enter_robot, call_change_robot, call_strike_robot, HERDBOOK_ROBOT, LAST_BOOK_ROBOT, 1},
    {call_enter_milking, call_change_milking, call_strike_milking, HERDBOOK_MILKING, LAST_BOOK_COW + 2, 0},
    {call_enter_cleaning, call_change_cleaning, call_strike_cleaning, HERDBOOK_CLEANING, LAST_BOOK_COW + 3, 0},
    {call_enter_treatment, call_change_treatment, call_strike_treatment, HERDBOOK_TREATMENT, LAST_BOOK_COW + 4, 0},
};

/* The calls of a kind. A group or a robot that is named is struck off, so that it is redone. */
static void measure_kind(const struct kind *kind)
{
    size_t fields = (size_t)HERDBOOK_SCHEMA[HERD_BLOCK(kind->relation) + HERD_COUNT_WORD];
    fill_book(N - 1);
    book_values(kind->relation, N, values);
    measure(kind->enter, HERD_DONE);
    if (HERDBOOK_SCHEMA[HERD_BLOCK(kind->relation) + HERD_KEY_WORDS] != 0) {
        values[0] = kind->last;
        measure(kind->enter, HERD_CONFLICT);
        values[0] = N;
    }
    fill_book(N);
    measure(kind->enter, HERD_FULL);
    record = kind->last;
    book_values(kind->relation, N + 1, values);
    for (field = 1; field <= fields; field++) {
        value = values[field - 1];
        measure(kind->change, HERD_DONE);
    }
    measure(kind->change, HERD_FIELD_OR_VALUE);
    measure(kind->strike, HERD_DONE);
    if (kind->held) {
        record--;
        measure(kind->strike, HERD_REFERENCED);
    }
    record = kind->relation == HERDBOOK_COW ? 1 : LAST_BOOK_COW;
    measure(kind->change, HERD_NOT_SHOWN);
    measure(kind->strike, HERD_NOT_SHOWN);
    own[HERD_RECORD(N) + HERD_NEXT_WORD] = 1;
    measure(kind->enter, HERD_OWN_NOT_WELL_FORMED);
    measure(kind->change, HERD_OWN_NOT_WELL_FORMED);
    measure(kind->strike, HERD_OWN_NOT_WELL_FORMED);
}

static void measure_book(void)
{
    size_t at;
    for (at = 0; at < sizeof kinds / sizeof kinds[0]; at++)
        measure_kind(&kinds[at]);
    fill_book(N);
    for (at = LAST_BOOK_COW + 1; at <= N + 1; at += 7) {
        label = HERD_LABEL(at, 1);
        measure(call_find_milking, HERD_DONE);
    }
    label = UINT64_MAX;
    measure(call_find_milking, HERD_DONE);
    own[HERD_RECORD(N) + HERD_NEXT_WORD] = 1;
    measure(call_find_milking, HERD_OWN_NOT_WELL_FORMED);
}

/* What the header tells for a call: the bytes measured, rounded up. */
static size_t rounded(size_t bytes)
{
    return (bytes + ROUND - 1) / ROUND * ROUND;
}

/* Whether the header tells what is measured, and that is within the limit. */
static int agrees(const char *name, size_t bytes, size_t told)
{
    if (rounded(bytes) != told)
        printf("stack: the header tells %zu bytes for %s, and %zu are measured\n", told, name, rounded(bytes));
    if (bytes > LIMIT)
        printf("stack: %s passes %d bytes\n", name, LIMIT);
    return rounded(bytes) == told && bytes <= LIMIT;
}

int main(int count, char **arguments)
{
    size_t at, most = 0, most_of_book = 0;
    int good = 1;
    (void)arguments;
    finish_schema(HERD_FIELDS);
    measure_reads();
    measure_merges();
    measure_compares();
    measure_lookups();
    measure_turnings();
    measure_edits();
    measure_book();
    for (at = 0; at < CALLS; at++) {
        size_t bytes = calls[at].bytes;
        size_t *largest = strncmp(calls[at].name, "book_", 5) == 0 ? &most_of_book : &most;
        if (bytes > *largest)
            *largest = bytes;
        if (count > 1) {
            printf("%s %zu\n", calls[at].name, rounded(bytes));
            continue;
        }
        printf("stack: %-21s %6zu bytes\n", calls[at].name, bytes);
        good = agrees(calls[at].name, bytes, calls[at].told) && good;
    }
    if (count > 1)
        return 0;
    good = agrees("all calls of herd.h", most, HERD_STACK) && good;
    good = agrees("all calls of herdbook.h", most_of_book, HERDBOOK_STACK) && good;
    printf("stack: a call that does nothing %zu bytes, the most %zu and %zu of %d\n", depth(call_nothing, 0xa5), most, most_of_book, LIMIT);
    return !good;
}
