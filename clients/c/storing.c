/*
 * What a caller must know to lose nothing, tested with the herd book: labels handed out twice, words of two tables in one file, a loser put
 * right, a full table, a delta cut and sent on, tables of a sealed robot, and a journal of deltas. Run by tools/clients.
 */
#include <stdio.h>
#include <string.h>

#include "herdbook.h"

enum { N = 8, WORDS = HERD_TABLE_WORDS(N), LARGER = HERD_TABLE_WORDS(2 * N) };

#define BOOK HERDBOOK_SCHEMA, HERD_SCHEMA_WORDS

/* Two robots, the office, a saved copy, and a table with room for more. */
static uint64_t robot[WORDS], second[WORDS], office[WORDS], saved[WORDS], larger[LARGER];
static herd_delta delta, other;
static int failed;

static void expect(int fact, const char *what)
{
    if (!fact) {
        printf("storing: not so: %s\n", what);
        failed = 1;
    }
}

static void done(uint64_t answer, const char *what) { expect(answer == HERD_DONE, what); }

static void start(void)
{
    done(herd_start(robot, WORDS, 1), "a robot is started");
    done(herd_start(second, WORDS, 2), "a second robot is started");
    done(herd_start(office, WORDS, 3), "the office is started");
}

static uint64_t take_in(uint64_t *own, const uint64_t *words, size_t count)
{
    uint64_t changed;
    return herd_merge(BOOK, own, WORDS, words, count, &changed);
}

static herd_label enter_group(uint64_t *table, uint64_t number)
{
    herd_label label = HERD_NONE;
    done(book_enter_group(table, WORDS, delta, HERD_DELTA_WORDS, number, &label), "a group is entered");
    return label;
}

static herd_label enter_cow(uint64_t *table, uint64_t tag, uint64_t transponder, herd_label group)
{
    herd_label label = HERD_NONE;
    done(book_enter_cow(table, WORDS, delta, HERD_DELTA_WORDS, tag, transponder, group, &label), "a cow is entered");
    return label;
}

static herd_label enter_milking(uint64_t *table, herd_label cow, uint64_t grams, uint64_t tenths, uint64_t minute)
{
    herd_label label = HERD_NONE;
    done(book_enter_milking(table, WORDS, delta, HERD_DELTA_WORDS, cow, HERD_NONE, grams, tenths, minute, &label), "a milking is entered");
    return label;
}

static size_t index_of(const uint64_t *table, uint64_t kind, herd_label label)
{
    uint64_t index;
    done(herd_lookup(BOOK, table, WORDS, kind, label, &index), "a record is looked up");
    return (size_t)index;
}

/* A field of the record that a table has under this label. */
static uint64_t value(const uint64_t *table, uint64_t kind, herd_label label, size_t field)
{
    return table[HERD_RECORD(index_of(table, kind, label)) + HERD_VALUE_WORDS + field - 1];
}

static int shown(const uint64_t *table, size_t index)
{
    uint8_t marks[N];
    uint64_t count;
    done(herd_marks(BOOK, table, WORDS, marks, N, &count), "the list is made");
    return marks[index - 1] == 1;
}

static uint64_t verdict(const uint64_t *a, size_t a_words, const uint64_t *b, size_t b_words)
{
    uint64_t found;
    done(herd_compare(BOOK, a, a_words, b, b_words, &found), "two tables are compared");
    return found;
}

/* A robot that sent its delta and falls back to the table before hands out the label again: a milking is listed that nobody entered. */
static void older_table(void)
{
    herd_label cow, a, b;
    start();
    cow = enter_cow(robot, 40, 7, HERD_NONE);
    done(take_in(office, delta, HERD_DELTA_WORDS), "the office takes in the cow");
    memcpy(saved, robot, sizeof saved);
    a = enter_milking(robot, cow, 9000, 380, 500);
    done(take_in(office, delta, HERD_DELTA_WORDS), "the office takes in the milking");
    memcpy(robot, saved, sizeof robot);
    b = enter_milking(robot, cow, 7000, 399, 620);
    expect(a == b, "the label is handed out twice");
    done(take_in(office, delta, HERD_DELTA_WORDS), "the office takes in the other milking");
    expect(value(office, HERDBOOK_MILKING, a, HERDBOOK_MILKING_GRAMS) == 9000
               && value(office, HERDBOOK_MILKING, a, HERDBOOK_MILKING_TENTHS) == 399
               && value(office, HERDBOOK_MILKING, a, HERDBOOK_MILKING_MINUTE) == 620,
           "the grams of one milking are listed with the minute of the other");

    /* It does not where the robot first takes in a copy that has all it sent, nor where its table is saved before the delta is sent. */
    memcpy(robot, saved, sizeof robot);
    done(take_in(robot, office, WORDS), "the robot takes in the office's table");
    a = enter_milking(robot, cow, 8000, 385, 700);
    expect(a > b, "the label is a new one");
    memcpy(saved, robot, sizeof saved);
    enter_milking(robot, cow, 8100, 386, 710);
    memcpy(robot, saved, sizeof robot);
    expect(enter_milking(robot, cow, 8200, 387, 720) > a, "a label that was sent is not handed out again");
}

/* A replica number of two robots, and one that is used again after a new start. */
static void same_number(void)
{
    herd_label a, b, cow;
    start();
    done(herd_start(second, WORDS, 1), "a second robot is started with the number of the first");
    a = enter_cow(robot, 50, 60, HERD_NONE);
    done(take_in(office, delta, HERD_DELTA_WORDS), "the office takes in the first's cow");
    b = enter_cow(second, 40, 70, HERD_NONE);
    done(take_in(office, delta, HERD_DELTA_WORDS), "the office takes in the second's cow");
    expect(a == b, "both cows have one label");
    expect(value(office, HERDBOOK_COW, a, HERDBOOK_COW_EAR_TAG) == 50 && value(office, HERDBOOK_COW, a, HERDBOOK_COW_TRANSPONDER) == 70,
           "a cow is listed that nobody entered");

    start();
    a = enter_group(robot, 5);
    cow = enter_cow(robot, 40, 7, a);
    done(take_in(office, robot, WORDS), "the office takes in the old season");
    done(herd_start(robot, WORDS, 1), "the robot is started anew with its number");
    b = enter_group(robot, 77);
    expect(a == b, "the new group has the label of the old one");
    done(take_in(office, robot, WORDS), "the office takes in the new season");
    expect(value(office, HERDBOOK_COW, cow, HERDBOOK_COW_GROUP) == a && value(office, HERDBOOK_GROUP, a, HERDBOOK_GROUP_NUMBER) == 77,
           "the old season's cow is in the new group");

    /* It does not where the robot first takes in a copy that has all it sent. */
    done(herd_start(robot, WORDS, 1), "the robot is started anew with its number");
    done(take_in(robot, office, WORDS), "it takes in the office's table");
    expect(enter_group(robot, 78) > cow, "its labels are new ones");
}

/* A table written over its old words, of which the first part came to be written: is it accepted, and neither the old nor the new one? */
static void half_written(void)
{
    herd_label cow, milking;
    size_t cut, index, grams, refused = 0, mixed = 0;
    start();
    cow = enter_cow(robot, 40, 7, HERD_NONE);
    milking = enter_milking(robot, cow, 9000, 380, 500);
    memcpy(saved, robot, sizeof saved);
    index = index_of(robot, HERDBOOK_MILKING, milking);
    done(book_change_milking(robot, WORDS, delta, HERD_DELTA_WORDS, index, HERDBOOK_MILKING_GRAMS, 9500), "the grams are corrected");
    for (cut = 0; cut <= WORDS; cut++) {
        memcpy(second, robot, cut * sizeof *robot);
        memcpy(second + cut, saved + cut, (WORDS - cut) * sizeof *saved);
        if (herd_table_check(BOOK, second, WORDS) != HERD_DONE)
            refused++;
        else if (memcmp(second, robot, sizeof robot) != 0 && memcmp(second, saved, sizeof saved) != 0)
            mixed++;
    }
    expect(refused == 0 && mixed > 0, "table check accepts words of which one half is new");
    grams = HERD_RECORD(index) + HERD_VALUE_WORDS + HERDBOOK_MILKING_GRAMS;
    memcpy(second, robot, grams * sizeof *robot);
    memcpy(second + grams, saved + grams, (WORDS - grams) * sizeof *saved);
    expect(value(second, HERDBOOK_MILKING, milking, HERDBOOK_MILKING_GRAMS) == 9500 && second[grams - 1 + HERD_FIELDS] == milking,
           "the new value stands under the old stamp");
    done(take_in(office, saved, WORDS), "the office has the old table");
    done(take_in(office, second, WORDS), "the office takes in the half-written one");
    expect(value(office, HERDBOOK_MILKING, milking, HERDBOOK_MILKING_GRAMS) == 9500, "and has that value too");
}

/* Two cows entered apart with one ear tag: the loser answers 6, and is put right by way of the winner. */
static void loser_put_right(void)
{
    herd_label winner, loser, treatment, label;
    size_t w, l, t;
    start();
    winner = enter_cow(robot, 40, 7, HERD_NONE);
    loser = enter_cow(second, 40, 8, HERD_NONE);
    done(book_enter_treatment(second, WORDS, delta, HERD_DELTA_WORDS, loser, 100, 9999, &treatment), "the second cow is treated");
    done(take_in(robot, second, WORDS), "the first robot takes in the second");
    w = index_of(robot, HERDBOOK_COW, winner), l = index_of(robot, HERDBOOK_COW, loser), t = index_of(robot, HERDBOOK_TREATMENT, treatment);
    expect(shown(robot, w) && !shown(robot, l) && !shown(robot, t), "the older cow is listed, the other and her treatment are not");
    expect(book_change_cow(robot, WORDS, delta, HERD_DELTA_WORDS, l, HERDBOOK_COW_EAR_TAG, 41) == HERD_NOT_SHOWN, "her tag is not changed");
    expect(book_strike_cow(robot, WORDS, delta, HERD_DELTA_WORDS, l) == HERD_NOT_SHOWN, "she is not struck off");
    expect(book_enter_cow(robot, WORDS, delta, HERD_DELTA_WORDS, 41, 8, HERD_NONE, &label) == HERD_CONFLICT, "nor entered anew");
    done(book_change_cow(robot, WORDS, delta, HERD_DELTA_WORDS, w, HERDBOOK_COW_EAR_TAG, 999), "the winner gets a tag that nobody has");
    done(book_change_cow(robot, WORDS, delta, HERD_DELTA_WORDS, l, HERDBOOK_COW_EAR_TAG, 41), "the loser gets hers");
    done(book_change_cow(robot, WORDS, delta, HERD_DELTA_WORDS, w, HERDBOOK_COW_EAR_TAG, 40), "and the winner hers again");
    expect(shown(robot, w) && shown(robot, l) && shown(robot, t), "both cows and the treatment are listed");
    done(take_in(office, robot, WORDS), "the office takes them in");
    expect(shown(office, index_of(office, HERDBOOK_COW, winner)) && shown(office, index_of(office, HERDBOOK_COW, loser)), "and lists both cows");

    /* Or the winner is struck off. */
    start();
    winner = enter_cow(robot, 40, 7, HERD_NONE);
    loser = enter_cow(second, 40, 8, HERD_NONE);
    done(take_in(robot, second, WORDS), "the first robot takes in the second");
    w = index_of(robot, HERDBOOK_COW, winner), l = index_of(robot, HERDBOOK_COW, loser);
    expect(!shown(robot, l), "the younger cow is not listed");
    done(book_strike_cow(robot, WORDS, delta, HERD_DELTA_WORDS, w), "the older one is struck off");
    expect(!shown(robot, w) && shown(robot, l), "and the younger one is listed");
}

/* A full table: striking off makes no room, zeros behind it do. */
static void full_table(void)
{
    herd_label cow, label;
    uint64_t i;
    size_t index;
    start();
    cow = enter_cow(robot, 40, 7, HERD_NONE);
    for (i = 1; i < N; i++)
        index = index_of(robot, HERDBOOK_MILKING, enter_milking(robot, cow, 9000, 385, i));
    expect(book_enter_treatment(robot, WORDS, delta, HERD_DELTA_WORDS, cow, 1, 2, &label) == HERD_FULL, "nothing more is entered");
    done(book_strike_milking(robot, WORDS, delta, HERD_DELTA_WORDS, index), "a milking is struck off");
    expect(book_enter_treatment(robot, WORDS, delta, HERD_DELTA_WORDS, cow, 1, 2, &label) == HERD_FULL, "and there is no more room");
    memset(larger, 0, sizeof larger);
    memcpy(larger, robot, sizeof robot);
    done(herd_table_check(BOOK, larger, LARGER), "with zeros behind it it is a table");
    expect(verdict(larger, LARGER, robot, WORDS) == HERD_ALIKE, "with the same contents");
    done(book_enter_treatment(larger, LARGER, delta, HERD_DELTA_WORDS, cow, 1, 2, &label), "and there is room");
}

/* A delta cut behind its used records; and one that a full robot could not take in and sends on. */
static void cut_and_sent_on(void)
{
    herd_label cow;
    uint64_t i, changed;
    size_t words;
    start();
    cow = enter_cow(robot, 40, 7, HERD_NONE);
    words = HERD_TABLE_WORDS(delta[HERD_USED_WORD]);
    expect(words < HERD_DELTA_WORDS, "the delta has one record");
    done(herd_table_check(BOOK, delta, words), "cut behind it the delta is a table");
    done(take_in(office, delta, words), "the office takes it in");
    done(take_in(second, delta, HERD_DELTA_WORDS), "the second robot takes it in whole");
    expect(verdict(office, WORDS, second, WORDS) == HERD_ALIKE, "both have the same contents");

    for (i = 1; i < N; i++)
        enter_milking(second, cow, 9000, 385, i);
    enter_milking(robot, cow, 8000, 390, 700);
    memcpy(other, delta, sizeof other);
    memcpy(saved, second, sizeof saved);
    expect(take_in(second, other, HERD_DELTA_WORDS) == HERD_FULL, "the second robot has no room for the first's milking");
    expect(memcmp(second, saved, sizeof saved) == 0, "and is as before");
    done(take_in(office, other, HERD_DELTA_WORDS), "sent on, the office has it");
    expect(office[HERD_USED_WORD] == 2, "which it has from nowhere else");
    memset(larger, 0, sizeof larger);
    memcpy(larger, second, sizeof second);
    done(herd_merge(BOOK, larger, LARGER, other, HERD_DELTA_WORDS, &changed), "with more room the second robot takes it in");
    expect(verdict(larger, LARGER, robot, WORDS) == HERD_SECOND_BEHIND, "and has all that the first has");
}

/* A sealed robot's table: widened and edited on both sides it hands out a label twice, and merged it does not. */
static void sealed_robot(void)
{
    static uint64_t old_schema[HERD_OLD_SCHEMA_WORDS], old[HERD_OLD_TABLE_WORDS(N)], sent[HERD_OLD_TABLE_WORDS(1)];
    static herd_schema schema;
    uint64_t seven[HERD_OLD_TABLE_WORDS(7)] = {1}, one[HERD_TABLE_WORDS(1)];
    herd_label cow;
    start();
    enter_cow(robot, 40, 7, HERD_NONE);
    done(herd_narrow(BOOK, robot, WORDS, old_schema, HERD_OLD_SCHEMA_WORDS, old, HERD_OLD_TABLE_WORDS(N)), "a table is narrowed");
    done(herd_widen(old_schema, HERD_OLD_SCHEMA_WORDS, old, HERD_OLD_TABLE_WORDS(N), schema, HERD_SCHEMA_WORDS, second, WORDS),
         "and widened on the new robot");
    expect(memcmp(robot, second, sizeof robot) == 0 && memcmp(schema, HERDBOOK_SCHEMA, sizeof schema) == 0, "nothing is lost");
    cow = enter_cow(robot, 41, 8, HERD_NONE);
    expect(enter_cow(second, 42, 9, HERD_NONE) == cow, "edited on both sides it hands out one label for two cows");
    expect(take_in(office, old, HERD_OLD_TABLE_WORDS(N)) == HERD_LENGTH_OR_INDEX, "an old table is not merged as it is");
    done(take_in(office, robot, WORDS), "the office takes in the sealed robot's table, widened");
    expect(enter_cow(office, 42, 9, HERD_NONE) != cow, "and hands out labels of its own");

    /* The office's delta, cut behind its record, for the sealed robot. */
    done(herd_narrow(BOOK, delta, HERD_TABLE_WORDS(1), old_schema, HERD_OLD_SCHEMA_WORDS, sent, HERD_OLD_TABLE_WORDS(1)),
         "a delta is cut and narrowed");
    done(herd_widen(old_schema, HERD_OLD_SCHEMA_WORDS, sent, HERD_OLD_TABLE_WORDS(1), schema, HERD_SCHEMA_WORDS, one, HERD_TABLE_WORDS(1)),
         "and widened again");
    done(take_in(robot, one, HERD_TABLE_WORDS(1)), "it is merged");
    expect(verdict(robot, WORDS, office, WORDS) == HERD_ALIKE, "and the tables are alike");
    done(herd_table_check(BOOK, seven, HERD_OLD_TABLE_WORDS(7)), "an empty table of seven old records is one of five");
}

/* A journal: of each delta the number of bytes, a check sum, and the words up to the last used record. */
enum { HEAD = 8, JOURNAL = 4096 };
static uint8_t journal[JOURNAL];
static size_t written;

static uint32_t sum(const uint8_t *bytes, size_t count)
{
    uint32_t crc = UINT32_MAX;
    size_t at;
    int bit;
    for (at = 0; at < count; at++)
        for (crc ^= bytes[at], bit = 0; bit < 8; bit++)
            crc = crc >> 1 ^ (crc & 1 ? UINT32_C(0xedb88320) : 0);
    return ~crc;
}

static void note(void)
{
    size_t words = HERD_TABLE_WORDS(delta[HERD_USED_WORD]);
    uint8_t *bytes = journal + written + HEAD;
    uint64_t head;
    herd_words_to_bytes(delta, words, bytes);
    head = (uint64_t)HERD_BYTES(words) << 32 | sum(bytes, HERD_BYTES(words));
    herd_words_to_bytes(&head, 1, journal + written);
    written += HEAD + HERD_BYTES(words);
}

/* The saved table and the deltas that stand whole in the first so many bytes of the journal; their number. */
static size_t recover(uint64_t *table, size_t bytes)
{
    size_t at = 0, taken = 0;
    memcpy(table, saved, sizeof saved);
    while (at + HEAD <= bytes) {
        uint64_t head, words[HERD_DELTA_WORDS];
        size_t count;
        herd_words_from_bytes(journal + at, 1, &head);
        count = (size_t)(head >> 32);
        if (count > bytes - at - HEAD || count > sizeof words || (uint32_t)head != sum(journal + at + HEAD, count))
            break;
        herd_words_from_bytes(journal + at + HEAD, count / HERD_WORD_BYTES, words);
        done(take_in(table, words, count / HERD_WORD_BYTES), "a delta of the journal is taken in");
        at += HEAD + count;
        taken++;
    }
    return taken;
}

/* The power goes at any byte of the journal: the table is that of the deltas noted whole, word for word. */
static void journal_recovered(void)
{
    enum { EDITS = 6 };
    static uint64_t after[EDITS + 1][WORDS];
    herd_label cow, milking = HERD_NONE;
    size_t edit, cut;
    start();
    cow = enter_cow(robot, 40, 7, enter_group(robot, 12));
    memcpy(saved, robot, sizeof saved);
    memcpy(after[0], robot, sizeof robot);
    written = 0;
    for (edit = 1; edit <= EDITS; edit++) {
        size_t last = (size_t)robot[HERD_USED_WORD];
        if (edit == 2)
            done(book_change_milking(robot, WORDS, delta, HERD_DELTA_WORDS, last, HERDBOOK_MILKING_GRAMS, 9100), "a milking is changed");
        else if (edit == 4)
            done(book_strike_milking(robot, WORDS, delta, HERD_DELTA_WORDS, last), "a milking is struck off");
        else if (edit == 5) {
            done(take_in(office, robot, WORDS), "the office takes in the robot's table");
            enter_milking(office, cow, 9005, 385, edit);
            done(take_in(robot, delta, HERD_DELTA_WORDS), "a delta of the office is taken in, and noted too");
        } else
            milking = enter_milking(robot, cow, 9000 + edit, 385, edit);
        note();
        memcpy(after[edit], robot, sizeof robot);
    }
    for (cut = 0; cut <= written; cut++)
        expect(memcmp(after[recover(second, cut)], second, sizeof second) == 0, "the journal gives the table back");
    expect(recover(second, written) == EDITS && milking != HERD_NONE, "all of it gives the last");
    memcpy(saved, robot, sizeof saved);
    expect(recover(second, written) == EDITS && memcmp(robot, second, sizeof robot) == 0, "onto the table written anew it changes no word");
    journal[HEAD + 3] ^= 1;
    expect(recover(second, written) == 0, "a changed bit is found");
}

int main(void)
{
    older_table();
    same_number();
    half_written();
    loser_put_right();
    full_table();
    cut_and_sent_on();
    sealed_robot();
    journal_recovered();
    return failed;
}
