/*
 * herd.h: tables of records that several replicas edit apart and merge later.
 *
 * The library has no heap and no state. The caller lends it arrays of 64-bit words: a schema, tables, deltas. Every call is total:
 * broken schemas, damaged tables and wrong arguments get a number, and a refused call changes nothing.
 *
 *   1. Write a schema (HERD_RELATION), and start a table for each replica (herd_start).
 *   2. Edit (herd_insert, herd_update, herd_delete). Each edit also writes a delta; send it, or the whole table, to the others.
 *   3. Merge what arrives (herd_merge). Tables that took in the same edits, in whatever order, show the same list.
 *   4. Mark the shown records (herd_marks) and read them in order (herd_walk, herd_values).
 *   5. Of two copies, ask which one must take in the other (herd_compare).
 *   6. Ask whether a record is known, by relation and label, and for its index (herd_lookup).
 *   7. Turn tables and deltas of a robot sealed with version 3.1.0 or before into those of this version, and back (herd_widen, herd_narrow).
 *
 * A record is complete when all its fields have arrived. The complete records that are not deleted stand, and so do the complete ones that
 * standing records reference by abort. From the oldest on, a standing record is kept unless it has a key of an older one that is kept: one
 * that is not kept hides nobody, but its keys stay taken (HERD_CONFLICT). The kept records whose references all lead to shown records are
 * shown. An empty reference (0) leads nowhere and is fine, but a key with one is no key.
 *
 * Link with libherd.a (tools/archive, or tools/install and pkg-config). Its objects are for x86-64 Linux. Of the C library it needs
 * memset and the like, and nothing else. At start-up compare the library with this header (herd_version_fits).
 *
 * herdbook.h has the herd book of a barn above these calls: a fixed schema, and calls in the barn's own words. docs/CALLS.md tells with
 * examples what each call does, and docs/STORING.md what a caller must know so as to lose nothing.
 *
 * What all calls need
 *   - A slice is a pointer and then its length, in words, or in bytes for marks. The pointer is not null, also with length 0; it is
 *     aligned for its type, and the memory is that long. Any length and any contents may be lent. So as not to be refused, a schema
 *     has HERD_SCHEMA_WORDS words, a table HERD_TABLE_WORDS(N) with N from 0 to HERD_MOST_RECORDS, a delta HERD_DELTA_WORDS, and
 *     there are N marks; an old schema has HERD_OLD_SCHEMA_WORDS, an old table HERD_OLD_TABLE_WORDS(N). `Needs` below tells what else a
 *     call must be lent.
 *   - What a call writes (a parameter without const) must overlap no other argument of the call. What is only read may overlap.
 *     To merge a table with itself, lend a copy; a table may be compared with itself.
 *   - Nothing else writes the memory during the call. Calls that share no written memory may run at the same time.
 *   - The stack below (HERD_STACK).
 *
 * What all calls answer
 *   - The number of the first check that fails, in number order (enum herd_answer), or HERD_DONE.
 *   - A refused call changes no word, no mark and no place; changed, verdict, the index of a lookup, label, shown, given and first
 *     become 0.
 */
#ifndef HERD_H
#define HERD_H

#include <stddef.h>
#include <stdint.h>

#ifdef __cplusplus
extern "C" {
#endif

/*
 * The version of this header, as one number: 4.1.0 is 40100. A change of a parameter list, of a layout figure or of what a call answers
 * raises the major part, an addition the minor part, anything else the patch. CHANGELOG.md tells what changed.
 */
#define HERD_VERSION_MAJOR 4
#define HERD_VERSION_MINOR 1
#define HERD_VERSION_PATCH 0
#define HERD_VERSION (HERD_VERSION_MAJOR * 10000 + HERD_VERSION_MINOR * 100 + HERD_VERSION_PATCH)

/* On a call: its answer is to be used, and none of its pointers is null. On a function: none of its pointers is null. */
#if defined(__GNUC__) || defined(__clang__)
#define HERD_CALL __attribute__((warn_unused_result, nonnull))
#define HERD_NONNULL __attribute__((nonnull))
#else
#define HERD_CALL
#define HERD_NONNULL
#endif

/* The calls take lengths as size_t, which has 64 bits in the library. */
typedef char herd_size_t_has_64_bits[sizeof(size_t) == 8 ? 1 : -1];

/* The answers. */
enum herd_answer {
    HERD_DONE = 0,
    HERD_LENGTH_OR_INDEX = 1,       /* wrong length of a slice other than an insertion's values; index 0, above used or above N */
    HERD_SCHEMA_BROKEN = 2,         /* schema broken */
    HERD_OWN_NOT_WELL_FORMED = 3,   /* own table not well-formed; the first of a comparison, what a lookup reads, the table turned */
    HERD_OTHER_NOT_WELL_FORMED = 4, /* other table not well-formed; in a comparison the second table */
    HERD_RELATION_OR_REPLICA = 5,   /* relation not 1 to R, or replica not 1 to 255 at start */
    HERD_NOT_SHOWN = 6,             /* record to edit is not shown */
    HERD_FIELD_OR_VALUE = 7,        /* field not 1 to F, wrong value count, reference neither 0 nor a label */
    HERD_TARGET_NOT_SHOWN = 8,      /* nonempty new target not shown */
    HERD_CONFLICT = 9,              /* another standing record conflicts on a key; in an update, on a key that names the field */
    HERD_REFERENCED = 10,           /* deletion: another standing record references it by abort */
    HERD_FULL = 11,                 /* merge needs more than N distinct records; insertion with used = N */
    HERD_CLOCK_AT_END = 12,         /* insertion or update with clock 2^40 - 1 */
    HERD_FLAG_AT_END = 13,          /* a flag to be redone is 65,535 */
    HERD_TOO_MANY_FIELDS = 14       /* a schema to be turned back has a relation with more than eight fields */
};

/* What a comparison says of two tables, and what is to be merged so that both have the same contents. */
enum herd_verdict {
    HERD_ALIKE = 1,         /* alike: nothing */
    HERD_FIRST_BEHIND = 2,  /* the first is behind: it takes in the second */
    HERD_SECOND_BEHIND = 3, /* the second is behind: it takes in the first */
    HERD_NEITHER = 4        /* neither contains the other: each takes in the other */
};

/*
 * Labels. A record's label is counter * 256 + replica; 0 means none. The smaller label is older.
 * A reference to a record is its label, and an empty reference is 0.
 */
typedef uint64_t herd_label;

#define HERD_NONE UINT64_C(0)
#define HERD_LARGEST_COUNTER UINT64_C(0xffffffffff) /* 2^40 - 1 */
#define HERD_LARGEST_REPLICA UINT64_C(255)
#define HERD_LARGEST_FLAG UINT64_C(65535)

/* The label of a counter, 1 to 2^40 - 1, and a replica, 1 to 255. */
#define HERD_LABEL(counter, replica) ((uint64_t)(counter) * 256 + (uint64_t)(replica))
#define HERD_COUNTER(label) ((uint64_t)(label) / 256)
#define HERD_REPLICA(label) ((uint64_t)(label) % 256)

/*
 * The schema: 129 words. Word 0 is the number of relations, 1 to 8; then a block of 16 words for each: field count, twelve kinds, two
 * key masks, a zero. What is not used is 0. Relations and fields count from 1.
 *
 *   static const herd_schema FARM = {
 *       2,
 *       HERD_RELATION(HERD_FIELD(1), 0, HERD_PLAIN),
 *       HERD_RELATION(HERD_FIELD(1) | HERD_FIELD(2), 0, HERD_PLAIN, HERD_ABORT(1)),
 *   };
 *
 * A treatment with all twelve fields: diagnosis, dose, route, quarter, vet, price, first and last withheld minute, receipt, drug, minute,
 * and its cow, who is of relation 2. The keys are the receipt, and drug, minute and cow together.
 *
 *       HERD_RELATION(HERD_FIELD(9), HERD_FIELD(10) | HERD_FIELD(11) | HERD_FIELD(12), HERD_PLAIN, HERD_PLAIN, HERD_PLAIN, HERD_PLAIN,
 *                     HERD_PLAIN, HERD_PLAIN, HERD_PLAIN, HERD_PLAIN, HERD_PLAIN, HERD_PLAIN, HERD_PLAIN, HERD_PROPAGATION(2)),
 */
#define HERD_FIELDS 12
#define HERD_MOST_RELATIONS 8
#define HERD_MOST_KEY_FIELDS 4
#define HERD_BLOCK_WORDS (HERD_FIELDS + 4)
#define HERD_SCHEMA_WORDS (1 + HERD_MOST_RELATIONS * HERD_BLOCK_WORDS)

typedef uint64_t herd_schema[HERD_SCHEMA_WORDS];

/* The kinds of fields: a plain value; a reference that keeps its target in the list; one that leaves the list with its target. */
#define HERD_PLAIN UINT64_C(1)
#define HERD_ABORT(relation) (UINT64_C(16) + (uint64_t)(relation))
#define HERD_PROPAGATION(relation) (UINT64_C(32) + (uint64_t)(relation))

/* A field in a key mask. A key is the sum of one to four fields; 0 is no key. */
#define HERD_FIELD(field) (UINT64_C(1) << ((field) - 1))

/* A relation's block: its two keys, then the kind of each field that it has. More than HERD_FIELDS kinds do not compile. */
#define HERD_RELATION(key1, key2, ...) HERD_FITTING(HERD_COUNT(__VA_ARGS__)), HERD_KINDS(__VA_ARGS__), (key1), (key2), 0

/*
 * Parts of HERD_RELATION: the count of its kinds, and of more than 32 a kind, which is no int; the count, if there is room for so many; the
 * kinds and then zeros, HERD_FIELDS words.
 */
#define HERD_COUNT(...)                                                                                                           \
    HERD_33RD(__VA_ARGS__, 32, 31, 30, 29, 28, 27, 26, 25, 24, 23, 22, 21, 20, 19, 18, 17, 16, 15, 14, 13, 12, 11, 10, 9, 8, 7, 6, \
              5, 4, 3, 2, 1, 0)
#define HERD_33RD(a1, a2, a3, a4, a5, a6, a7, a8, a9, a10, a11, a12, a13, a14, a15, a16, a17, a18, a19, a20, a21, a22, a23, a24, \
                  a25, a26, a27, a28, a29, a30, a31, a32, a33, ...)                                                              \
    a33
#define HERD_FITTING(count) ((uint64_t)(count) * sizeof(char[(count) <= HERD_FIELDS && sizeof(count) == sizeof(int) ? 1 : -1]))
#define HERD_KINDS(...) HERD_PASTE(HERD_FIRST_, HERD_FIELDS)(__VA_ARGS__, 0, 0, 0, 0, 0, 0, 0, 0, 0, 0, 0, 0, 0, 0, 0, 0)
#define HERD_PASTE(left, right) HERD_PASTE_(left, right)
#define HERD_PASTE_(left, right) left##right
#define HERD_FIRST_1(kind, ...) (kind)
#define HERD_FIRST_2(kind, ...) (kind), HERD_FIRST_1(__VA_ARGS__)
#define HERD_FIRST_3(kind, ...) (kind), HERD_FIRST_2(__VA_ARGS__)
#define HERD_FIRST_4(kind, ...) (kind), HERD_FIRST_3(__VA_ARGS__)
#define HERD_FIRST_5(kind, ...) (kind), HERD_FIRST_4(__VA_ARGS__)
#define HERD_FIRST_6(kind, ...) (kind), HERD_FIRST_5(__VA_ARGS__)
#define HERD_FIRST_7(kind, ...) (kind), HERD_FIRST_6(__VA_ARGS__)
#define HERD_FIRST_8(kind, ...) (kind), HERD_FIRST_7(__VA_ARGS__)
#define HERD_FIRST_9(kind, ...) (kind), HERD_FIRST_8(__VA_ARGS__)
#define HERD_FIRST_10(kind, ...) (kind), HERD_FIRST_9(__VA_ARGS__)
#define HERD_FIRST_11(kind, ...) (kind), HERD_FIRST_10(__VA_ARGS__)
#define HERD_FIRST_12(kind, ...) (kind), HERD_FIRST_11(__VA_ARGS__)
#define HERD_FIRST_13(kind, ...) (kind), HERD_FIRST_12(__VA_ARGS__)
#define HERD_FIRST_14(kind, ...) (kind), HERD_FIRST_13(__VA_ARGS__)
#define HERD_FIRST_15(kind, ...) (kind), HERD_FIRST_14(__VA_ARGS__)
#define HERD_FIRST_16(kind, ...) (kind), HERD_FIRST_15(__VA_ARGS__)

/* The word at which the block of a relation begins; the words from there on. */
#define HERD_BLOCK(relation) ((size_t)1 + HERD_BLOCK_WORDS * ((size_t)(relation) - 1))
#define HERD_COUNT_WORD 0
#define HERD_KIND_WORDS 1
#define HERD_KEY_WORDS (HERD_KIND_WORDS + HERD_FIELDS)

/*
 * The table: 16 + 28N words, N from 0 to 4,096. A table file or message is these words, little-endian (herd_words_to_bytes).
 *
 *   uint64_t table[HERD_TABLE_WORDS(200)];
 *
 * Up to version 3.1.0 there were eight fields and 16 + 20N words, the old form below. The new robot merges old tables only converted
 * (herd_widen). A length does not tell the form: 7 old records are as long as 5 of this version. Where N is a multiple of 7 an old table
 * has a length of this version, it is then judged by its words, and an empty one is well-formed. So a file or message carries its version
 * beside it.
 */
#define HERD_HEADER_WORDS 16
#define HERD_HEAD_WORDS 4
#define HERD_RECORD_WORDS (HERD_HEAD_WORDS + 2 * HERD_FIELDS)
#define HERD_MOST_RECORDS 4096
#define HERD_TABLE_WORDS(records) (HERD_HEADER_WORDS + HERD_RECORD_WORDS * (size_t)(records))

/* Words of the header: replica, clock, number of used records, first record of relations 1 to 8. */
#define HERD_REPLICA_WORD 0
#define HERD_CLOCK_WORD 1
#define HERD_USED_WORD 2
#define HERD_FIRST_WORDS 4

/* The word at which the record of an index, 1 to used, begins; the words from there on. */
#define HERD_RECORD(index) (HERD_HEADER_WORDS + HERD_RECORD_WORDS * ((size_t)(index) - 1))
#define HERD_NEXT_WORD 0
#define HERD_RELATION_WORD 1
#define HERD_LABEL_WORD 2
#define HERD_FLAG_WORD 3
#define HERD_VALUE_WORDS HERD_HEAD_WORDS
#define HERD_STAMP_WORDS (HERD_VALUE_WORDS + HERD_FIELDS)

/* A delta, what an edit changed, is a table of thirteen records, 380 words. It need not be zeroed again between edits. */
#define HERD_DELTA_RECORDS (HERD_FIELDS + 1)
#define HERD_DELTA_WORDS (HERD_HEADER_WORDS + HERD_RECORD_WORDS * HERD_DELTA_RECORDS)

typedef uint64_t herd_delta[HERD_DELTA_WORDS];

/*
 * The old form, of versions up to 3.1.0, for herd_widen and herd_narrow. It has eight fields, and but for their number it is the form
 * above: a schema of 97 words with blocks of 12, a table of 16 + 20N words, a delta of nine records and 196 words.
 */
#define HERD_OLD_FIELDS 8
#define HERD_OLD_BLOCK_WORDS (HERD_BLOCK_WORDS - HERD_FIELDS + HERD_OLD_FIELDS)
#define HERD_OLD_SCHEMA_WORDS (1 + HERD_MOST_RELATIONS * HERD_OLD_BLOCK_WORDS)
#define HERD_OLD_RECORD_WORDS (HERD_HEAD_WORDS + 2 * HERD_OLD_FIELDS)
#define HERD_OLD_TABLE_WORDS(records) (HERD_HEADER_WORDS + HERD_OLD_RECORD_WORDS * (size_t)(records))
#define HERD_OLD_DELTA_RECORDS (HERD_OLD_FIELDS + 1)
#define HERD_OLD_DELTA_WORDS (HERD_HEADER_WORDS + HERD_OLD_RECORD_WORDS * HERD_OLD_DELTA_RECORDS)

/*
 * The stack that each call needs at most, in bytes, without what interrupts, signals and lazy dynamic linking take. Measured by
 * tools/stack on tables of 4,096 records, which fails if a call passes 160 KiB; the calls do not recurse, and their arrays have fixed
 * sizes, so that a small table needs as much. Of an edit and of the marks 96 KiB are the resolved references, two bytes for each field of
 * each record, and 32 KiB the keys of the records; up to version 3.1.0, with eight fields, the references took 64 KiB, and the limit was
 * 128 KiB.
 */
#define HERD_STACK_VERSION 64
#define HERD_STACK_SCHEMA_CHECK 192
#define HERD_STACK_TABLE_CHECK 384
#define HERD_STACK_START 128
#define HERD_STACK_MERGE 448
#define HERD_STACK_COMPARE 448
#define HERD_STACK_LOOKUP 320
#define HERD_STACK_WIDEN 256
#define HERD_STACK_NARROW 384
#define HERD_STACK_INSERT 152128
#define HERD_STACK_UPDATE 152128
#define HERD_STACK_DELETE 152064
#define HERD_STACK_MARKS 143808
#define HERD_STACK_WALK 384
#define HERD_STACK_VALUES 64
#define HERD_STACK 152128 /* the largest of them */

/* The version of the linked library, as HERD_VERSION is made. */
HERD_CALL uint64_t herd_version(void);

/* Whether the linked library fits this header: the same major part, and at least its minor part. */
static inline int herd_version_fits(void)
{
    const uint64_t version = herd_version();
    return version / 10000 == HERD_VERSION_MAJOR && version / 100 >= HERD_VERSION / 100;
}

/*
 * Whether the words are a schema that is not broken.
 * Answers: 0, 1, 2.
 */
HERD_CALL uint64_t herd_schema_check(const uint64_t *schema, size_t schema_words);

/*
 * Whether the words are a well-formed table under the schema.
 * Answers: 0, 1, 2, 3.
 */
HERD_CALL uint64_t herd_table_check(const uint64_t *schema, size_t schema_words, const uint64_t *table, size_t table_words);

/*
 * Starts a table: zeroes it and writes the replica number. Old contents are ignored.
 * Needs: replica 1 to 255, another one for each table.
 * Answers: 0, 1, 5.
 * Changes: table.
 */
HERD_CALL uint64_t herd_start(uint64_t *table, size_t table_words, uint64_t replica);

/*
 * Merges another table, or a delta, into the own table. Records of both are joined; others are added after the used ones.
 * The own replica number and the indices of the own records remain; the clock becomes the larger one.
 * Needs: room for the records of both. The two tables may have different N.
 * Answers: 0, 1, 2, 3, 4, 11.
 * Changes: own; *changed, the number of old records of which a value, a stamp or the flag differs from before, each counted once, plus
 * the number of records added; 0 in a refusal. It is 0 for a copy of the own table, and where only the clock is raised. It is about the
 * own table: a merge in the other direction may give another number. A robot sends on only if it is not 0.
 */
HERD_CALL uint64_t herd_merge(const uint64_t *schema, size_t schema_words, uint64_t *own, size_t own_words, const uint64_t *other,
                              size_t other_words, uint64_t *changed);

/*
 * Compares two tables: which one is behind, and so must take in the other. The first is behind if the merge of both has exactly the
 * second's clock, records, registers and flags, and the first has not; the second likewise. Replica numbers, the indices of records and
 * N play no part, and the merge of both need not have room in either.
 * Needs: two tables under one schema; a delta is one too. They may have different N, and may overlap.
 * Answers: 0, 1, 2, 3, 4. Here 3 is about the first table, and 4 about the second.
 * Changes: *verdict, one of enum herd_verdict; 0 in a refusal.
 */
HERD_CALL uint64_t herd_compare(const uint64_t *schema, size_t schema_words, const uint64_t *first, size_t first_words,
                                const uint64_t *second, size_t second_words, uint64_t *verdict);

/*
 * Looks up a record by relation and label. It is known if the table holds it, shown or not: a deleted or hidden record is known too.
 * The call walks the chain of the relation from its oldest record on, and stops at the label, at a larger one, or at the end. Its time
 * grows with the records of the relation that are older than the label, and not with those of other relations. On a well-formed table
 * its yes or no is that of a search through all records.
 * Use it to ask whether a record is known, and for the index that herd_update and herd_delete take; of a record that is not shown these
 * answer HERD_NOT_SHOWN themselves, and herd_marks tells which are shown. It is no table check: damage behind the last record read, on
 * other chains or above the used records is not seen. Check a table that was stored or received first (herd_table_check).
 * Needs: relation 1 to R. The label is any number; one that is no label, as HERD_NONE, is not known.
 * Answers: 0, 1, 2, 3, 5. Here 3 is about what is read: a word of the header, a first index above used, a chain above R that is not
 * empty, or a record on the way, the last one included. For a relation that is not 1 to R no record is read.
 * Changes: *index, the record's index, 1 to used; 0 where it is not known, and in a refusal.
 */
HERD_CALL uint64_t herd_lookup(const uint64_t *schema, size_t schema_words, const uint64_t *table, size_t table_words, size_t relation,
                               herd_label label, uint64_t *index);

/*
 * Turns an old schema and an old table into a schema and a table of this version, with the same N. R, each relation's field count, kinds
 * and masks, the header, and at each position the record's next, relation, label, flag, values and stamps stay the same; what the old
 * form lacks is 0. herd_narrow gives the old words back. An old delta becomes a table with N = HERD_OLD_DELTA_RECORDS, which is merged
 * as one. What is written is merged under the own schema: compare the schema written with that first.
 * The replica number stays the same too: of an old table and the one that it was turned into only one is edited further, or a label is
 * handed out twice.
 * Needs: an old schema that is not broken and an old table that is well-formed, by the rules for eight fields; room for the schema and
 * for a table with the same N. Of what is written only the lengths are asked, and old contents are ignored.
 * Answers: 0, 1, 2, 3. Here 1 is also for N that differ, 2 is about the old schema and 3 about the old table.
 * Changes: schema, table.
 */
HERD_CALL uint64_t herd_widen(const uint64_t *old_schema, size_t old_schema_words, const uint64_t *old_table, size_t old_table_words,
                              uint64_t *schema, size_t schema_words, uint64_t *table, size_t table_words);

/*
 * Turns a schema and a table of this version back into old ones, with the same N, for a sealed robot to read. The words that herd_widen
 * keeps stay the same, and it gives the schema and the table back. A delta becomes an old table with N = HERD_DELTA_RECORDS, which is no
 * old delta; cut behind its used records first, to HERD_TABLE_WORDS(used), it becomes a shorter one.
 * The old table holds the same records. The list of a sealed robot may differ all the same: before 3.0.0 a record that is not kept hid
 * others too.
 * Needs: a schema of which no relation has more than HERD_OLD_FIELDS fields, and a table under it; room for the old schema and for an old
 * table with the same N. Of what is written only the lengths are asked, and old contents are ignored.
 * Answers: 0, 1, 2, 3, 14. Here 1 is also for N that differ, 2 is about the schema and 3 about the table that are turned.
 * Changes: old_schema, old_table.
 */
HERD_CALL uint64_t herd_narrow(const uint64_t *schema, size_t schema_words, const uint64_t *table, size_t table_words,
                               uint64_t *old_schema, size_t old_schema_words, uint64_t *old_table, size_t old_table_words);

/*
 * Inserts a record, at index used + 1. Its label is the clock + 1 with the own replica number; the clock rises by 1.
 * Deleted records that it references are redone.
 * Needs: a value for each field of the relation, references to shown records.
 * Answers: 0, 1, 2, 3, 5, 7, 8, 9, 11, 12, 13.
 * Changes: own; delta, which becomes the changed records; *label, the new label, 0 in a refusal.
 */
HERD_CALL uint64_t herd_insert(const uint64_t *schema, size_t schema_words, uint64_t *own, size_t own_words, uint64_t *delta,
                               size_t delta_words, size_t relation, const uint64_t *values, size_t value_count, herd_label *label);

/*
 * Updates one field of a shown record; the clock rises by 1. A deleted new target is redone, and so is a deleted old target by abort
 * that another record still references.
 * Needs: index 1 to used; field 1 to F of the record's relation.
 * Answers: 0, 1, 2, 3, 6, 7, 8, 9, 12, 13.
 * Changes: own; delta, which becomes the changed records.
 */
HERD_CALL uint64_t herd_update(const uint64_t *schema, size_t schema_words, uint64_t *own, size_t own_words, uint64_t *delta,
                               size_t delta_words, size_t index, size_t field, uint64_t value);

/*
 * Deletes a shown record: its flag is raised, and the clock stays. The record keeps its index. Its deleted targets by abort that
 * another record still references are redone.
 * Needs: index 1 to used.
 * Answers: 0, 1, 2, 3, 6, 10, 13.
 * Changes: own; delta, which becomes the changed records.
 */
HERD_CALL uint64_t herd_delete(const uint64_t *schema, size_t schema_words, uint64_t *own, size_t own_words, uint64_t *delta,
                               size_t delta_words, size_t index);

/*
 * Marks the shown records: byte i - 1 becomes 1 if record i is shown, and otherwise 0. Old contents are ignored.
 * Cows with the keys ear tag and transponder, from the oldest on: of (40, 7), (40, 8), (41, 8) the first and the third are shown. Without
 * the first, the second is shown and the third is not.
 * Answers: 0, 1, 2, 3.
 * Changes: marks; *shown, the count of shown records, 0 in a refusal.
 */
HERD_CALL uint64_t herd_marks(const uint64_t *schema, size_t schema_words, const uint64_t *table, size_t table_words, uint8_t *marks,
                              size_t mark_count, uint64_t *shown);

/*
 * The next marked record after *place, by relation and then label. It checks the whole table at each call.
 * Needs: *place 0 for the first record, then as the call before left it.
 * Answers: 0, 1, 2, 3. A place above used or above N gives 1.
 * Changes: *place, the index of the record given; *given, the same, 0 at the end of the list and in a refusal. The place does not
 * move there.
 *
 *   uint64_t place = 0, given;
 *   while (herd_walk(schema, HERD_SCHEMA_WORDS, table, words, marks, records, &place, &given) == HERD_DONE && given != 0)
 *       ...
 */
HERD_CALL uint64_t herd_walk(const uint64_t *schema, size_t schema_words, const uint64_t *table, size_t table_words, const uint8_t *marks,
                             size_t mark_count, uint64_t *place, uint64_t *given);

/*
 * Where the values of a record are: table[*first] to table[*first + HERD_FIELDS - 1]. Those above the relation's fields are 0.
 * Needs: index 1 to used. The table is not checked otherwise.
 * Answers: 0, 1.
 * Changes: *first, 0 in a refusal.
 */
HERD_CALL uint64_t herd_values(const uint64_t *table, size_t table_words, size_t index, uint64_t *first);

/* What an answer means, for a log. */
static inline const char *herd_answer_text(uint64_t answer)
{
    switch (answer) {
    case HERD_DONE:
        return "done";
    case HERD_LENGTH_OR_INDEX:
        return "a lent slice other than an insertion's values has a wrong length, or a record index is 0, above used or above N";
    case HERD_SCHEMA_BROKEN:
        return "schema broken";
    case HERD_OWN_NOT_WELL_FORMED:
        return "own table not well-formed";
    case HERD_OTHER_NOT_WELL_FORMED:
        return "other table not well-formed";
    case HERD_RELATION_OR_REPLICA:
        return "relation not 1 to R, or replica not 1 to 255 at start";
    case HERD_NOT_SHOWN:
        return "record to edit is not shown";
    case HERD_FIELD_OR_VALUE:
        return "field not 1 to F, wrong value count, reference neither 0 nor a label";
    case HERD_TARGET_NOT_SHOWN:
        return "nonempty new target not shown";
    case HERD_CONFLICT:
        return "insertion: a standing record conflicts with the new one; "
               "update: another standing record would conflict on a key that names the field";
    case HERD_REFERENCED:
        return "deletion: another standing record references it by abort";
    case HERD_FULL:
        return "merge needs more than N distinct records; insertion with used = N";
    case HERD_CLOCK_AT_END:
        return "insertion or update with clock 2^40 - 1";
    case HERD_FLAG_AT_END:
        return "a flag to be redone is 65,535";
    case HERD_TOO_MANY_FIELDS:
        return "a schema to be turned back has a relation with more than eight fields";
    default:
        return "no answer of this version";
    }
}

/* What a verdict means, for a log. */
static inline const char *herd_verdict_text(uint64_t verdict)
{
    switch (verdict) {
    case HERD_ALIKE:
        return "the tables are alike";
    case HERD_FIRST_BEHIND:
        return "the first table is behind and must take in the second";
    case HERD_SECOND_BEHIND:
        return "the second table is behind and must take in the first";
    case HERD_NEITHER:
        return "neither table contains the other, and each must take in the other";
    default:
        return "no verdict of this version";
    }
}

/* The bytes of so many words in a file or a message, and of one. */
#define HERD_WORD_BYTES 8
#define HERD_BYTES(words) (HERD_WORD_BYTES * (size_t)(words))

/* Writes words as bytes, little-endian: HERD_BYTES(word_count) of them. The two may not overlap. */
HERD_NONNULL static inline void herd_words_to_bytes(const uint64_t *words, size_t word_count, uint8_t *bytes)
{
    size_t at;
    for (at = 0; at < HERD_BYTES(word_count); at++)
        bytes[at] = (uint8_t)(words[at / HERD_WORD_BYTES] >> (8 * (at % HERD_WORD_BYTES)));
}

/* Reads words from HERD_BYTES(word_count) bytes, little-endian. The two may not overlap. */
HERD_NONNULL static inline void herd_words_from_bytes(const uint8_t *bytes, size_t word_count, uint64_t *words)
{
    size_t at, byte;
    for (at = 0; at < word_count; at++) {
        words[at] = 0;
        for (byte = HERD_WORD_BYTES; byte > 0; byte--)
            words[at] = words[at] << 8 | (uint64_t)bytes[HERD_BYTES(at) + byte - 1];
    }
}

#ifdef __cplusplus
}
#endif

#endif
