/*
 * herdbook.h: the herd book of a barn, above herd.h: groups, cows, robots, milkings, cleanings and treatments.
 *
 * The kinds of records and their fields are fixed (HERDBOOK_SCHEMA). For each kind one call enters a record, one changes a field of a
 * record, and one strikes a record off. One more finds a milking by its label.
 *
 *   1. Start a table for each robot and for the office (herd_start).
 *   2. Enter, change and strike off. Each of these calls also writes a delta; send it, or the whole table, to the others.
 *   3. Merge what arrives (herd_merge, with HERDBOOK_SCHEMA).
 *   4. Mark the shown records and read them in order (herd_marks and herd_walk, with HERDBOOK_SCHEMA; herd_values).
 *
 * A record has a label and an index. The label is given when it is entered, and is the same in all tables: records name each other by
 * it. The index is where the record stands in one table, and stays there; change and strike take it. A record just entered has the index
 * own[HERD_USED_WORD]; herd_walk gives the index of each shown record, book_find_milking that of a shown milking, and herd_lookup, with
 * HERDBOOK_SCHEMA and the kind, that of any record, shown or not.
 *
 * To enter is herd_insert under HERDBOOK_SCHEMA, to change is herd_update, to strike off is herd_delete, each with its answers.
 *   - HERD_NOT_SHOWN (6) is also the answer for a record of another kind, as for a cow that book_strike_robot is to strike off.
 *   - HERD_SCHEMA_BROKEN (2) and HERD_RELATION_OR_REPLICA (5) do not occur.
 *   - What all calls of herd.h need and answer goes for these too: pointers, lengths, overlap, memory, refusals.
 *
 * Link with libherdbook.a and libherd.a (-lherdbook -lherd). The herd book has no version of its own: it is released with the library, and
 * herd_version_fits() tells whether that fits.
 */
#ifndef HERDBOOK_H
#define HERDBOOK_H

#include "herd.h"

#ifdef __cplusplus
extern "C" {
#endif

/* The kinds of records, which are the relations of the schema. */
enum herdbook_kind {
    HERDBOOK_GROUP = 1,
    HERDBOOK_COW = 2,
    HERDBOOK_ROBOT = 3,
    HERDBOOK_MILKING = 4,
    HERDBOOK_CLEANING = 5,
    HERDBOOK_TREATMENT = 6
};

/*
 * The fields of each kind, in order: book_change_.. takes their numbers, and the value of field f is the word
 * HERD_RECORD(index) + HERD_VALUE_WORDS + f - 1 of the table. A group, a cow or a robot is named by its label, or by HERD_NONE for none,
 * which every such field may hold. The other values are plain numbers, into which the library does not look; minutes count from a time
 * that the barn chooses.
 */
enum herdbook_group_field {
    HERDBOOK_GROUP_NUMBER = 1 /* no two listed groups have the same */
};

enum herdbook_cow_field {
    HERDBOOK_COW_EAR_TAG = 1,     /* no two listed cows have the same */
    HERDBOOK_COW_TRANSPONDER = 2, /* no two listed cows have the same */
    HERDBOOK_COW_GROUP = 3        /* her group, which stays in the list as long as she does */
};

enum herdbook_robot_field {
    HERDBOOK_ROBOT_NUMBER = 1 /* no two listed robots have the same */
};

enum herdbook_milking_field {
    HERDBOOK_MILKING_COW = 1,    /* the cow; the milking leaves the list with her */
    HERDBOOK_MILKING_ROBOT = 2,  /* the robot, which stays in the list as long as the milking does */
    HERDBOOK_MILKING_GRAMS = 3,  /* the milk, in grams */
    HERDBOOK_MILKING_TENTHS = 4, /* its temperature, in tenths of a degree: 385 is 38.5 degrees */
    HERDBOOK_MILKING_MINUTE = 5  /* when, in minutes */
};

enum herdbook_cleaning_field {
    HERDBOOK_CLEANING_ROBOT = 1, /* the robot, which stays in the list as long as the cleaning does */
    HERDBOOK_CLEANING_START = 2, /* the minute of its start */
    HERDBOOK_CLEANING_END = 3    /* the minute of its end */
};

enum herdbook_treatment_field {
    HERDBOOK_TREATMENT_COW = 1,   /* the cow; the treatment leaves the list with her */
    HERDBOOK_TREATMENT_FIRST = 2, /* the first minute in which her milk is withheld */
    HERDBOOK_TREATMENT_LAST = 3   /* the last minute in which her milk is withheld */
};

/* The schema, for herd_merge, herd_compare, herd_lookup, herd_marks, herd_walk and herd_table_check. */
static const herd_schema HERDBOOK_SCHEMA = {
    6,
    HERD_RELATION(HERD_FIELD(HERDBOOK_GROUP_NUMBER), 0, HERD_PLAIN),
    HERD_RELATION(HERD_FIELD(HERDBOOK_COW_EAR_TAG), HERD_FIELD(HERDBOOK_COW_TRANSPONDER), HERD_PLAIN, HERD_PLAIN,
                  HERD_ABORT(HERDBOOK_GROUP)),
    HERD_RELATION(HERD_FIELD(HERDBOOK_ROBOT_NUMBER), 0, HERD_PLAIN),
    HERD_RELATION(0, 0, HERD_PROPAGATION(HERDBOOK_COW), HERD_ABORT(HERDBOOK_ROBOT), HERD_PLAIN, HERD_PLAIN, HERD_PLAIN),
    HERD_RELATION(0, 0, HERD_ABORT(HERDBOOK_ROBOT), HERD_PLAIN, HERD_PLAIN),
    HERD_RELATION(0, 0, HERD_PROPAGATION(HERDBOOK_COW), HERD_PLAIN, HERD_PLAIN),
};

/* The stack that each call needs at most, in bytes, measured by tools/stack as for herd.h. */
#define HERDBOOK_STACK_ENTER_GROUP 153216
#define HERDBOOK_STACK_CHANGE_GROUP 153216
#define HERDBOOK_STACK_STRIKE_GROUP 153088
#define HERDBOOK_STACK_ENTER_COW 153216
#define HERDBOOK_STACK_CHANGE_COW 153216
#define HERDBOOK_STACK_STRIKE_COW 153088
#define HERDBOOK_STACK_ENTER_ROBOT 153216
#define HERDBOOK_STACK_CHANGE_ROBOT 153216
#define HERDBOOK_STACK_STRIKE_ROBOT 153088
#define HERDBOOK_STACK_ENTER_MILKING 153280
#define HERDBOOK_STACK_CHANGE_MILKING 153216
#define HERDBOOK_STACK_STRIKE_MILKING 153088
#define HERDBOOK_STACK_ENTER_CLEANING 153216
#define HERDBOOK_STACK_CHANGE_CLEANING 153216
#define HERDBOOK_STACK_STRIKE_CLEANING 153088
#define HERDBOOK_STACK_ENTER_TREATMENT 153216
#define HERDBOOK_STACK_CHANGE_TREATMENT 153216
#define HERDBOOK_STACK_STRIKE_TREATMENT 153088
#define HERDBOOK_STACK_FIND_MILKING 148928
#define HERDBOOK_STACK 153280 /* the largest of them */

/*
 * The calls of each kind.
 *
 * book_enter_KIND enters a record, at index used + 1, and gives its label; the clock rises by 1.
 * Needs: room for a record; shown records as the ones that it names; numbers, ear tag and transponder of its own.
 * Changes: own; delta, which becomes the changed records; *label, the new label, 0 in a refusal.
 *
 * book_change_KIND changes one field of a shown record of the kind; the clock rises by 1.
 * Needs: index 1 to used; a field of the kind, by its number.
 * Changes: own; delta, which becomes the changed records.
 *
 * book_strike_KIND strikes off a shown record of the kind. The record keeps its index, and is no longer shown.
 * Needs: index 1 to used; no cow in the group, no milking and no cleaning of the robot.
 * Changes: own; delta, which becomes the changed records.
 */

/*
 * A group: its number.
 * Answers: enter 0, 1, 3, 9, 11, 12; change 0, 1, 3, 6, 7, 9, 12; strike 0, 1, 3, 6, 10.
 */
HERD_CALL uint64_t book_enter_group(uint64_t *own, size_t own_words, uint64_t *delta, size_t delta_words, uint64_t number,
                                    herd_label *label);
HERD_CALL uint64_t book_change_group(uint64_t *own, size_t own_words, uint64_t *delta, size_t delta_words, size_t index, size_t field,
                                     uint64_t value);
HERD_CALL uint64_t book_strike_group(uint64_t *own, size_t own_words, uint64_t *delta, size_t delta_words, size_t index);

/*
 * A cow: ear tag, transponder, and the label of her group or HERD_NONE.
 * Answers: enter 0, 1, 3, 7, 8, 9, 11, 12, 13; change 0, 1, 3, 6, 7, 8, 9, 12, 13; strike 0, 1, 3, 6, 13.
 */
HERD_CALL uint64_t book_enter_cow(uint64_t *own, size_t own_words, uint64_t *delta, size_t delta_words, uint64_t ear_tag,
                                  uint64_t transponder, herd_label group, herd_label *label);
HERD_CALL uint64_t book_change_cow(uint64_t *own, size_t own_words, uint64_t *delta, size_t delta_words, size_t index, size_t field,
                                   uint64_t value);
HERD_CALL uint64_t book_strike_cow(uint64_t *own, size_t own_words, uint64_t *delta, size_t delta_words, size_t index);

/*
 * A robot: its number.
 * Answers: enter 0, 1, 3, 9, 11, 12; change 0, 1, 3, 6, 7, 9, 12; strike 0, 1, 3, 6, 10.
 */
HERD_CALL uint64_t book_enter_robot(uint64_t *own, size_t own_words, uint64_t *delta, size_t delta_words, uint64_t number,
                                    herd_label *label);
HERD_CALL uint64_t book_change_robot(uint64_t *own, size_t own_words, uint64_t *delta, size_t delta_words, size_t index, size_t field,
                                     uint64_t value);
HERD_CALL uint64_t book_strike_robot(uint64_t *own, size_t own_words, uint64_t *delta, size_t delta_words, size_t index);

/*
 * A milking: the labels of cow and robot, or HERD_NONE; grams, tenths of a degree, minute.
 * Answers: enter 0, 1, 3, 7, 8, 11, 12, 13; change 0, 1, 3, 6, 7, 8, 12, 13; strike 0, 1, 3, 6, 13.
 */
HERD_CALL uint64_t book_enter_milking(uint64_t *own, size_t own_words, uint64_t *delta, size_t delta_words, herd_label cow,
                                      herd_label robot, uint64_t grams, uint64_t tenths, uint64_t minute, herd_label *label);
HERD_CALL uint64_t book_change_milking(uint64_t *own, size_t own_words, uint64_t *delta, size_t delta_words, size_t index, size_t field,
                                       uint64_t value);
HERD_CALL uint64_t book_strike_milking(uint64_t *own, size_t own_words, uint64_t *delta, size_t delta_words, size_t index);

/*
 * A cleaning: the label of its robot or HERD_NONE; start and end minute.
 * Answers: enter 0, 1, 3, 7, 8, 11, 12, 13; change 0, 1, 3, 6, 7, 8, 12, 13; strike 0, 1, 3, 6, 13.
 */
HERD_CALL uint64_t book_enter_cleaning(uint64_t *own, size_t own_words, uint64_t *delta, size_t delta_words, herd_label robot,
                                       uint64_t start, uint64_t end, herd_label *label);
HERD_CALL uint64_t book_change_cleaning(uint64_t *own, size_t own_words, uint64_t *delta, size_t delta_words, size_t index, size_t field,
                                        uint64_t value);
HERD_CALL uint64_t book_strike_cleaning(uint64_t *own, size_t own_words, uint64_t *delta, size_t delta_words, size_t index);

/*
 * A treatment: the label of its cow or HERD_NONE; first and last withheld minute.
 * Answers: enter 0, 1, 3, 7, 8, 11, 12; change 0, 1, 3, 6, 7, 8, 12; strike 0, 1, 3, 6.
 */
HERD_CALL uint64_t book_enter_treatment(uint64_t *own, size_t own_words, uint64_t *delta, size_t delta_words, herd_label cow,
                                        uint64_t first, uint64_t last, herd_label *label);
HERD_CALL uint64_t book_change_treatment(uint64_t *own, size_t own_words, uint64_t *delta, size_t delta_words, size_t index, size_t field,
                                         uint64_t value);
HERD_CALL uint64_t book_strike_treatment(uint64_t *own, size_t own_words, uint64_t *delta, size_t delta_words, size_t index);

/*
 * The index of the shown milking with this label.
 * Answers: 0, 1, 3.
 * Changes: *index, which becomes 0 where no milking with this label is shown (a label of another kind, of a milking that is struck off or
 * hidden, or of none; HERD_NONE; a number that is no label), and in a refusal.
 */
HERD_CALL uint64_t book_find_milking(const uint64_t *table, size_t table_words, herd_label label, uint64_t *index);

#ifdef __cplusplus
}
#endif

#endif
