/*
 * herd_widen and herd_narrow, tested from C: every word of both sides, over buffers with old contents and between words that no call may
 * write; deltas of both forms; the smallest and the largest table; each refusal, in number order, which changes no word. Run by
 * tools/clients.
 */
#include <stdio.h>
#include <string.h>

#include "herd.h"

enum { GROUP = 1, COW = 2, RELATIONS = 2 };
enum { RECORDS = 7, WORDS = HERD_TABLE_WORDS(RECORDS), OLD_WORDS = HERD_OLD_TABLE_WORDS(RECORDS) };

/* The kinds of a cow's eight fields, the last her group. */
#define EIGHT HERD_PLAIN, HERD_PLAIN, HERD_PLAIN, HERD_PLAIN, HERD_PLAIN, HERD_PLAIN, HERD_PLAIN, HERD_ABORT(GROUP)

/* The eighth field of a cow is a key, and so are the first two together. */
static const herd_schema SCHEMA = {
    RELATIONS,
    HERD_RELATION(HERD_FIELD(1), 0, HERD_PLAIN),
    HERD_RELATION(HERD_FIELD(8), HERD_FIELD(1) | HERD_FIELD(2), EIGHT),
};

/* The same with a ninth field of a cow. */
static const herd_schema NINE = {
    RELATIONS,
    HERD_RELATION(HERD_FIELD(1), 0, HERD_PLAIN),
    HERD_RELATION(HERD_FIELD(8), HERD_FIELD(1) | HERD_FIELD(2), EIGHT, HERD_PLAIN),
};

/* A schema and a table of each form, between words that no call may write. */
struct wide {
    uint64_t before, schema[HERD_SCHEMA_WORDS], between, table[WORDS], behind;
};

struct old {
    uint64_t before, schema[HERD_OLD_SCHEMA_WORDS], between, table[OLD_WORDS], behind;
};

static uint64_t own[WORDS];
static herd_delta delta;
static struct wide wide;
static struct old old;
static int failed;

static void expect(int fact, const char *what)
{
    if (!fact) {
        printf("old: not so: %s\n", what);
        failed = 1;
    }
}

/* Old contents, and whether they are still there. */
static void make_stale(void *words, size_t bytes)
{
    memset(words, 0xa5, bytes);
}

static int is_stale(const void *words, size_t bytes)
{
    const uint8_t *at = (const uint8_t *)words;
    size_t count = 0;
    while (count < bytes && at[count] == 0xa5)
        count++;
    return count == bytes;
}

/* Turns the schema and the table of `wide` back into `old`, over old contents; the words around them stay. */
static uint64_t narrow(void)
{
    uint64_t answer;
    make_stale(&old, sizeof old);
    answer = herd_narrow(wide.schema, HERD_SCHEMA_WORDS, wide.table, WORDS, old.schema, HERD_OLD_SCHEMA_WORDS, old.table, OLD_WORDS);
    expect(is_stale(&old.before, 8) && is_stale(&old.between, 8) && is_stale(&old.behind, 8), "no other word is written");
    return answer;
}

/* Turns those of `old` into `wide`. */
static uint64_t widen(void)
{
    uint64_t answer;
    make_stale(&wide, sizeof wide);
    answer = herd_widen(old.schema, HERD_OLD_SCHEMA_WORDS, old.table, OLD_WORDS, wide.schema, HERD_SCHEMA_WORDS, wide.table, WORDS);
    expect(is_stale(&wide.before, 8) && is_stale(&wide.between, 8) && is_stale(&wide.behind, 8), "no other word is written");
    return answer;
}

static herd_label insert(size_t relation, const uint64_t *values)
{
    size_t count = (size_t)SCHEMA[HERD_BLOCK(relation) + HERD_COUNT_WORD];
    herd_label label = HERD_NONE;
    expect(herd_insert(SCHEMA, HERD_SCHEMA_WORDS, own, WORDS, delta, HERD_DELTA_WORDS, relation, values, count, &label) == HERD_DONE,
           "a record is inserted");
    return label;
}

/* Two groups and two cows, of which the second leaves her group, which is deleted then. There is room for three records more. */
static void fill(void)
{
    uint64_t first[HERD_OLD_FIELDS] = {40, 7, 33, 34, 35, 36, 37, 0}, second[HERD_OLD_FIELDS] = {41, 7, 0, UINT64_MAX, 0, 0, 0, 0};
    uint64_t name = 12;
    expect(herd_start(own, WORDS, 1) == HERD_DONE, "a table is started");
    first[7] = insert(GROUP, &name);
    insert(COW, first);
    name = 14;
    second[7] = insert(GROUP, &name);
    insert(COW, second);
    expect(herd_update(SCHEMA, HERD_SCHEMA_WORDS, own, WORDS, delta, HERD_DELTA_WORDS, 4, 8, HERD_NONE) == HERD_DONE, "a field is updated");
    expect(herd_delete(SCHEMA, HERD_SCHEMA_WORDS, own, WORDS, delta, HERD_DELTA_WORDS, 3) == HERD_DONE, "a group is deleted");
    memcpy(wide.schema, SCHEMA, sizeof wide.schema);
    memcpy(wide.table, own, sizeof wide.table);
}

static void figures(void)
{
    expect(HERD_OLD_FIELDS == 8 && HERD_OLD_BLOCK_WORDS == 12 && HERD_OLD_SCHEMA_WORDS == 97, "the figures of an old schema");
    expect(HERD_OLD_RECORD_WORDS == 20 && HERD_OLD_TABLE_WORDS(0) == 16 && HERD_OLD_TABLE_WORDS(3) == 76, "the figures of an old table");
    expect(HERD_OLD_DELTA_RECORDS == 9 && HERD_OLD_DELTA_WORDS == 196, "the figures of an old delta");
}

/* Each block of the old schema has the field count, the kinds and the masks of the schema's; R is the same. */
static void blocks(void)
{
    size_t relation, at;
    expect(old.schema[0] == RELATIONS, "R stays the same");
    for (relation = 1; relation <= HERD_MOST_RELATIONS; relation++) {
        const uint64_t *block = SCHEMA + HERD_BLOCK(relation);
        const uint64_t *turned = old.schema + 1 + HERD_OLD_BLOCK_WORDS * (relation - 1);
        for (at = 0; at < HERD_KIND_WORDS + HERD_OLD_FIELDS; at++)
            expect(turned[at] == block[at], "field count and kinds stay the same");
        for (; at < HERD_OLD_BLOCK_WORDS; at++)
            expect(turned[at] == block[at + HERD_FIELDS - HERD_OLD_FIELDS], "masks stay the same");
    }
}

/* The header is the same, and at each position the record's words are. */
static void records(void)
{
    size_t index, at;
    expect(memcmp(old.table, own, HERD_BYTES(HERD_HEADER_WORDS)) == 0, "the header stays the same");
    for (index = 1; index <= RECORDS; index++) {
        const uint64_t *record = own + HERD_RECORD(index), *turned = old.table + HERD_OLD_TABLE_WORDS(index - 1);
        for (at = 0; at < HERD_VALUE_WORDS + HERD_OLD_FIELDS; at++)
            expect(turned[at] == record[at], "next, relation, label, flag and values stay the same");
        for (at = 0; at < HERD_OLD_FIELDS; at++)
            expect(turned[HERD_VALUE_WORDS + HERD_OLD_FIELDS + at] == record[HERD_STAMP_WORDS + at], "stamps stay the same");
    }
}

static void both_ways(void)
{
    static struct old first;
    fill();
    expect(narrow() == HERD_DONE, "a schema and a table are turned back");
    blocks();
    records();
    first = old;
    expect(widen() == HERD_DONE, "an old schema and table are turned");
    expect(memcmp(wide.schema, SCHEMA, sizeof wide.schema) == 0 && memcmp(wide.table, own, sizeof own) == 0,
           "what the old form lacks is 0, and nothing is lost");
    expect(narrow() == HERD_DONE && memcmp(&first, &old, sizeof old) == 0, "old to new and back gives the same words");
}

/* The delta of a cow who is inserted, in both forms. Cut to nine records it is the one that a sealed robot writes. */
static void deltas(void)
{
    enum { NINE_RECORDS = HERD_TABLE_WORDS(HERD_OLD_DELTA_RECORDS), OLD_THIRTEEN = HERD_OLD_TABLE_WORDS(HERD_DELTA_RECORDS) };
    static uint64_t sealed[HERD_OLD_DELTA_WORDS], widened[NINE_RECORDS], thirteen[OLD_THIRTEEN], one[HERD_OLD_TABLE_WORDS(1)];
    const uint64_t values[HERD_OLD_FIELDS] = {42, 8, 0, 0, 0, 0, 0, HERD_NONE};
    uint64_t changed;
    fill();
    memcpy(wide.table, own, sizeof own);
    insert(COW, values);
    expect(herd_narrow(SCHEMA, HERD_SCHEMA_WORDS, delta, NINE_RECORDS, old.schema, HERD_OLD_SCHEMA_WORDS, sealed, HERD_OLD_DELTA_WORDS)
               == HERD_DONE,
           "a delta of nine records is turned back");
    expect(herd_merge(SCHEMA, HERD_SCHEMA_WORDS, wide.table, WORDS, sealed, HERD_OLD_DELTA_WORDS, &changed) == HERD_LENGTH_OR_INDEX,
           "an old delta is not merged as it is");
    expect(herd_widen(old.schema, HERD_OLD_SCHEMA_WORDS, sealed, HERD_OLD_DELTA_WORDS, wide.schema, HERD_SCHEMA_WORDS, widened, NINE_RECORDS)
                   == HERD_DONE
               && memcmp(widened, delta, sizeof widened) == 0,
           "an old delta becomes a table of nine records");
    expect(herd_merge(SCHEMA, HERD_SCHEMA_WORDS, wide.table, WORDS, widened, NINE_RECORDS, &changed) == HERD_DONE && changed == 1
               && memcmp(wide.table, own, sizeof own) == 0,
           "and is merged as one");
    expect(herd_narrow(SCHEMA, HERD_SCHEMA_WORDS, delta, HERD_DELTA_WORDS, old.schema, HERD_OLD_SCHEMA_WORDS, thirteen, OLD_THIRTEEN)
                   == HERD_DONE
               && memcmp(thirteen, sealed, sizeof sealed) == 0 && OLD_THIRTEEN == 276,
           "a delta becomes an old table of thirteen records");
    expect(herd_narrow(SCHEMA, HERD_SCHEMA_WORDS, delta, HERD_TABLE_WORDS(1), old.schema, HERD_OLD_SCHEMA_WORDS, one,
                       HERD_OLD_TABLE_WORDS(1))
                   == HERD_DONE
               && memcmp(one, sealed, sizeof one) == 0,
           "cut behind its record it becomes one of a record");
}

/* Tables of so many records, of which all are used: both ways. One more than the most has a wrong length on either side. */
static void sizes(void)
{
    static uint64_t table[HERD_TABLE_WORDS(HERD_MOST_RECORDS + 1)], back[HERD_TABLE_WORDS(HERD_MOST_RECORDS + 1)];
    static uint64_t turned[HERD_OLD_TABLE_WORDS(HERD_MOST_RECORDS + 1)];
    static const size_t counts[] = {0, 1, HERD_MOST_RECORDS, HERD_MOST_RECORDS + 1};
    size_t at, index;
    for (at = 0; at < sizeof counts / sizeof counts[0]; at++) {
        const size_t n = counts[at], words = HERD_TABLE_WORDS(n), old_words = HERD_OLD_TABLE_WORDS(n);
        const uint64_t expected = n > HERD_MOST_RECORDS ? HERD_LENGTH_OR_INDEX : HERD_DONE;
        memset(table, 0, sizeof table);
        table[HERD_REPLICA_WORD] = 255, table[HERD_CLOCK_WORD] = table[HERD_USED_WORD] = n, table[HERD_FIRST_WORDS] = n != 0;
        for (index = 1; index <= n; index++) {
            uint64_t *record = table + HERD_RECORD(index);
            record[HERD_NEXT_WORD] = index < n ? index + 1 : 0, record[HERD_RELATION_WORD] = GROUP;
            record[HERD_LABEL_WORD] = record[HERD_STAMP_WORDS] = HERD_LABEL(index, 3), record[HERD_VALUE_WORDS] = 1000 + index;
        }
        make_stale(turned, sizeof turned);
        make_stale(back, sizeof back);
        expect(herd_narrow(SCHEMA, HERD_SCHEMA_WORDS, table, words, old.schema, HERD_OLD_SCHEMA_WORDS, turned, old_words) == expected,
               "a table of any N up to the most is turned back");
        expect(herd_widen(old.schema, HERD_OLD_SCHEMA_WORDS, turned, old_words, wide.schema, HERD_SCHEMA_WORDS, back, words) == expected,
               "and turned again");
        expect(expected == HERD_LENGTH_OR_INDEX ? is_stale(back, sizeof back) : memcmp(back, table, HERD_BYTES(words)) == 0,
               "with the same words");
    }
}

/* An old table of seven records has the length of one of five. */
static void one_length(void)
{
    uint64_t changed;
    fill();
    expect(narrow() == HERD_DONE && OLD_WORDS == HERD_TABLE_WORDS(5), "seven old records are as long as five new ones");
    expect(herd_table_check(SCHEMA, HERD_SCHEMA_WORDS, old.table, OLD_WORDS) == HERD_OWN_NOT_WELL_FORMED, "an old table is no new one");
    expect(herd_merge(SCHEMA, HERD_SCHEMA_WORDS, own, WORDS, old.table, OLD_WORDS, &changed) == HERD_OTHER_NOT_WELL_FORMED,
           "and is not merged as one");
    expect(herd_widen(old.schema, HERD_OLD_SCHEMA_WORDS, own, HERD_TABLE_WORDS(5), wide.schema, HERD_SCHEMA_WORDS, wide.table, WORDS)
               == HERD_OWN_NOT_WELL_FORMED,
           "a new table is no old one");
}

/* A turning back must give this answer, and change no word. */
static void not_narrowed(const uint64_t *schema, size_t schema_words, size_t words, size_t old_schema_words, size_t old_words,
                         uint64_t expected, const char *what)
{
    uint64_t answer;
    make_stale(&old, sizeof old);
    answer = herd_narrow(schema, schema_words, own, words, old.schema, old_schema_words, old.table, old_words);
    expect(answer == expected && is_stale(&old, sizeof old), what);
}

/* The schema has too many fields first, then the table is damaged, then the schema broken, then the lengths are wrong: each is told before
 * those of before. */
static void refusals_of_narrow(void)
{
    enum { S = HERD_SCHEMA_WORDS, OLD_S = HERD_OLD_SCHEMA_WORDS };
    herd_schema broken;
    fill();
    not_narrowed(NINE, S, WORDS, OLD_S, OLD_WORDS, HERD_TOO_MANY_FIELDS, "a ninth field of any relation is too many");
    expect(herd_start(own, WORDS, 1) == HERD_DONE, "a table is started");
    not_narrowed(NINE, S, WORDS, OLD_S, OLD_WORDS, HERD_TOO_MANY_FIELDS, "also where no record has it");
    own[HERD_REPLICA_WORD] = 0;
    not_narrowed(NINE, S, WORDS, OLD_S, OLD_WORDS, HERD_OWN_NOT_WELL_FORMED, "a damaged table is refused");
    memcpy(broken, NINE, sizeof broken);
    broken[HERD_BLOCK(HERD_MOST_RELATIONS)] = 1;
    not_narrowed(broken, S, WORDS, OLD_S, OLD_WORDS, HERD_SCHEMA_BROKEN, "a broken schema is refused");
    not_narrowed(broken, S - 1, WORDS, OLD_S, OLD_WORDS, HERD_LENGTH_OR_INDEX, "a short schema is refused");
    not_narrowed(broken, S, WORDS - 1, OLD_S, OLD_WORDS, HERD_LENGTH_OR_INDEX, "a short table is refused");
    not_narrowed(broken, S, WORDS, OLD_S - 1, OLD_WORDS, HERD_LENGTH_OR_INDEX, "a short old schema is refused");
    not_narrowed(broken, S, WORDS, OLD_S, OLD_WORDS - 1, HERD_LENGTH_OR_INDEX, "a short old table is refused");
    not_narrowed(broken, S, HERD_TABLE_WORDS(RECORDS - 1), OLD_S, OLD_WORDS, HERD_LENGTH_OR_INDEX, "a smaller table is refused");
    not_narrowed(broken, S, WORDS, OLD_S, HERD_OLD_TABLE_WORDS(RECORDS - 1), HERD_LENGTH_OR_INDEX, "a smaller old table is refused");
    not_narrowed(broken, S, HERD_TABLE_WORDS(5), OLD_S, OLD_WORDS, HERD_LENGTH_OR_INDEX, "lengths that are equal are of two N");
    not_narrowed(broken, 0, 0, 0, 0, HERD_LENGTH_OR_INDEX, "slices without words are refused");
}

/* The same of an old schema and table. */
static void not_widened(size_t old_schema_words, size_t old_words, size_t schema_words, size_t words, uint64_t expected, const char *what)
{
    uint64_t answer;
    make_stale(&wide, sizeof wide);
    answer = herd_widen(old.schema, old_schema_words, old.table, old_words, wide.schema, schema_words, wide.table, words);
    expect(answer == expected && is_stale(&wide, sizeof wide), what);
}

/* A word of the old table is wrong, by the rules for eight fields. */
static void damaged(size_t at, uint64_t word, const char *what)
{
    uint64_t right = old.table[at];
    old.table[at] = word;
    not_widened(HERD_OLD_SCHEMA_WORDS, OLD_WORDS, HERD_SCHEMA_WORDS, WORDS, HERD_OWN_NOT_WELL_FORMED, what);
    old.table[at] = right;
}

static void damages(void)
{
    const size_t group = HERD_OLD_TABLE_WORDS(0), cow = HERD_OLD_TABLE_WORDS(1), stamps = HERD_VALUE_WORDS + HERD_OLD_FIELDS;
    fill();
    expect(narrow() == HERD_DONE, "a table is turned back");
    damaged(HERD_REPLICA_WORD, 256, "a replica above 255 is refused");
    damaged(HERD_CLOCK_WORD, 3, "a clock below a label is refused");
    damaged(HERD_USED_WORD, RECORDS + 1, "more used records than N are refused");
    damaged(HERD_FIRST_WORDS + RELATIONS, 1, "a chain above R is refused");
    damaged(cow + HERD_NEXT_WORD, 5, "a next above used is refused");
    damaged(group + HERD_VALUE_WORDS + 1, 1, "a value above the fields is refused");
    damaged(group + stamps + 1, HERD_LABEL(1, 1), "a stamp above the fields is refused");
    damaged(cow + HERD_VALUE_WORDS + 7, 1, "an eighth value that is no label is refused");
    damaged(cow + stamps + 7, HERD_LABEL(9, 1), "an eighth stamp above the clock is refused");
    damaged(cow + stamps, HERD_NONE, "a value without a stamp is refused");
    damaged(HERD_OLD_TABLE_WORDS(4), 1, "a word above the used records is refused");
    damaged(OLD_WORDS - 1, 1, "the last word too");
}

static void refusals_of_widen(void)
{
    enum { S = HERD_SCHEMA_WORDS, OLD_S = HERD_OLD_SCHEMA_WORDS };
    uint64_t *count = old.schema + 1 + HERD_OLD_BLOCK_WORDS * (COW - 1) + HERD_COUNT_WORD;
    old.table[HERD_REPLICA_WORD] = 0;
    not_widened(OLD_S, OLD_WORDS, S, WORDS, HERD_OWN_NOT_WELL_FORMED, "a damaged old table is refused");
    *count = HERD_OLD_FIELDS + 1;
    not_widened(OLD_S, OLD_WORDS, S, WORDS, HERD_SCHEMA_BROKEN, "an old schema of nine fields is broken");
    *count = 0;
    not_widened(OLD_S, OLD_WORDS, S, WORDS, HERD_SCHEMA_BROKEN, "so is one without fields");
    not_widened(OLD_S - 1, OLD_WORDS, S, WORDS, HERD_LENGTH_OR_INDEX, "a short old schema is refused");
    not_widened(OLD_S, OLD_WORDS - 1, S, WORDS, HERD_LENGTH_OR_INDEX, "a short old table is refused");
    not_widened(OLD_S, OLD_WORDS, S - 1, WORDS, HERD_LENGTH_OR_INDEX, "a short schema is refused");
    not_widened(OLD_S, OLD_WORDS, S, WORDS - 1, HERD_LENGTH_OR_INDEX, "a short table is refused");
    not_widened(OLD_S, HERD_OLD_TABLE_WORDS(RECORDS - 1), S, WORDS, HERD_LENGTH_OR_INDEX, "a smaller old table is refused");
    not_widened(OLD_S, OLD_WORDS, S, HERD_TABLE_WORDS(RECORDS - 1), HERD_LENGTH_OR_INDEX, "a smaller table is refused");
    not_widened(OLD_S, OLD_WORDS, S, HERD_TABLE_WORDS(5), HERD_LENGTH_OR_INDEX, "lengths that are equal are of two N");
    not_widened(0, 0, 0, 0, HERD_LENGTH_OR_INDEX, "slices without words are refused");
}

int main(void)
{
    figures();
    both_ways();
    deltas();
    sizes();
    one_length();
    refusals_of_narrow();
    damages();
    refusals_of_widen();
    return failed;
}
