//! Items: the calls, the categories, and what an item is.

use crate::layout::FIELDS;

/// A slice that a call is lent; THIRD is another table, a delta or marks. A call that turns a schema
/// and a table has the schema turned and the one written in SCHEMA, one behind the other.
#[derive(Clone, Copy, Debug, PartialEq, Eq)]
pub enum Slice {
    Schema,
    Table,
    Third,
    Values,
}

pub const SCHEMA: Slice = Slice::Schema;
pub const TABLE: Slice = Slice::Table;
pub const THIRD: Slice = Slice::Third;
pub const VALUES: Slice = Slice::Values;

/// One kind of item.
pub struct Shape {
    pub name: &'static str,
    /// The lent slices, in the order of `Slice`.
    pub slices: &'static [Slice],
    pub words: usize,
    pub results: usize,
    /// Which of the lent slices come back.
    pub exits: &'static [Slice],
    /// The vector program that runs it.
    pub program: &'static str,
}

impl Shape {
    /// The position of a lent slice among the item's slices.
    pub fn position(&self, slice: Slice) -> usize {
        self.slices.iter().position(|lent| *lent == slice).unwrap_or(0)
    }
}

/// The vector programs, by groups of calls.
pub const TABLES: &str = "vectors_tables";
pub const LISTS: &str = "vectors_lists";
pub const EDITS: &str = "vectors_edits";
pub const FLEETS: &str = "vectors_fleets";
pub const BOOK: &str = "vectors_book";
pub const TURNS: &str = "vectors_shapes";
pub const PROGRAMS: [&str; 6] = [TABLES, LISTS, EDITS, FLEETS, BOOK, TURNS];

const fn shape(
    name: &'static str,
    slices: &'static [Slice],
    words: usize,
    results: usize,
    exits: &'static [Slice],
    program: &'static str,
) -> Shape {
    Shape { name, slices, words, results, exits, program }
}

pub const LABEL_OF: u8 = 1;
pub const REGISTER_JOIN: u8 = 2;
pub const FLAG_JOIN: u8 = 3;
pub const DELETE: u8 = 4;
pub const REDO: u8 = 5;
pub const SCHEMA_CHECK: u8 = 6;
pub const TABLE_CHECK: u8 = 7;
pub const START: u8 = 8;
pub const RECORD_VALUES: u8 = 9;
pub const MERGE: u8 = 10;
pub const INSERTION: u8 = 11;
pub const UPDATE: u8 = 12;
pub const DELETION: u8 = 13;
pub const MARKS: u8 = 14;
pub const WALK: u8 = 15;
pub const FLEET_BEGIN: u8 = 16;
pub const FLEET_START: u8 = 17;
pub const FLEET_COPY: u8 = 18;
pub const FLEET_COPY_DELTA: u8 = 19;
pub const FLEET_SPOIL: u8 = 20;
pub const FLEET_MERGE: u8 = 21;
pub const FLEET_INSERTION: u8 = 22;
pub const FLEET_UPDATE: u8 = 23;
pub const FLEET_DELETION: u8 = 24;
pub const FLEET_MARKS: u8 = 25;
pub const FLEET_WALK: u8 = 26;
pub const BOOK_ENTER: u8 = 27;
pub const BOOK_CHANGE: u8 = 28;
pub const BOOK_STRIKE: u8 = 29;
pub const BOOK_FIND: u8 = 30;
pub const COMPARE: u8 = 31;
pub const LOOKUP: u8 = 32;
pub const WIDEN: u8 = 33;
pub const NARROW: u8 = 34;

/// The shape of each call, from call 1 on.
pub const SHAPES: [Shape; 34] = [
    shape("label_of", &[], 2, 1, &[], TABLES),
    shape("register_join", &[], 4, 3, &[], TABLES),
    shape("flag_join", &[], 2, 2, &[], TABLES),
    shape("delete", &[], 1, 1, &[], TABLES),
    shape("redo", &[], 1, 1, &[], TABLES),
    shape("schema_check", &[SCHEMA], 0, 0, &[], TABLES),
    shape("table_check", &[SCHEMA, TABLE], 0, 0, &[], TABLES),
    shape("start", &[TABLE], 1, 0, &[TABLE], TABLES),
    shape("values", &[TABLE], 1, FIELDS, &[], TABLES),
    shape("merge", &[SCHEMA, TABLE, THIRD], 0, 1, &[TABLE], TABLES),
    shape("insertion", &[SCHEMA, TABLE, THIRD, VALUES], 1, 1, &[TABLE, THIRD], EDITS),
    shape("update", &[SCHEMA, TABLE, THIRD], 3, 0, &[TABLE, THIRD], EDITS),
    shape("deletion", &[SCHEMA, TABLE, THIRD], 1, 0, &[TABLE, THIRD], EDITS),
    shape("marks", &[SCHEMA, TABLE, THIRD], 0, 1, &[THIRD], LISTS),
    shape("walk", &[SCHEMA, TABLE, THIRD], 1, 2, &[], LISTS),
    shape("fleet_begin", &[SCHEMA], 6, 1, &[], FLEETS),
    shape("fleet_start", &[], 2, 1, &[], FLEETS),
    shape("fleet_copy", &[], 2, 1, &[], FLEETS),
    shape("fleet_copy_delta", &[], 1, 1, &[], FLEETS),
    shape("fleet_spoil", &[], 3, 1, &[], FLEETS),
    shape("fleet_merge", &[], 2, 2, &[], FLEETS),
    shape("fleet_insertion", &[VALUES], 2, 2, &[], FLEETS),
    shape("fleet_update", &[], 4, 1, &[], FLEETS),
    shape("fleet_deletion", &[], 2, 1, &[], FLEETS),
    shape("fleet_marks", &[], 1, 2, &[], FLEETS),
    shape("fleet_walk", &[], 2, 2, &[], FLEETS),
    shape("book_enter", &[TABLE, THIRD, VALUES], 1, 1, &[TABLE, THIRD], BOOK),
    shape("book_change", &[TABLE, THIRD], 4, 0, &[TABLE, THIRD], BOOK),
    shape("book_strike", &[TABLE, THIRD], 2, 0, &[TABLE, THIRD], BOOK),
    shape("book_find", &[TABLE], 1, 1, &[], BOOK),
    shape("compare", &[SCHEMA, TABLE, THIRD], 0, 1, &[], TABLES),
    shape("lookup", &[SCHEMA, TABLE], 2, 1, &[], TABLES),
    shape("widen", &[SCHEMA, TABLE, THIRD], 1, 1, &[THIRD], TURNS),
    shape("narrow", &[SCHEMA, TABLE, THIRD], 1, 1, &[THIRD], TURNS),
];

/// The names of the categories, from category 1 on.
pub const CATEGORIES: [&str; 135] = [
    "labels, registers and flags",
    "schemas at their limits",
    "schemas with one rule broken",
    "schemas with two rules broken",
    "tables made by calls",
    "tables made directly",
    "tables at their limits",
    "tables with one rule broken",
    "tables with two rules broken",
    "chains",
    "wrong lengths",
    "capacity 0",
    "capacity 4,096",
    "indices and places",
    "merges of tables",
    "merges with deltas",
    "merges and room",
    "merges with damaged tables",
    "marks: abort chains",
    "marks: references in a ring, and unknown ones",
    "marks: keys",
    "marks and walks of random tables",
    "edits",
    "the order of the refusals",
    "fleets",
    "edge: used = N - 1 inserts",
    "edge: used = N gives 11",
    "edge: N = 0 starts and shows nothing",
    "edge: clock 2^40 - 2 inserts",
    "edge: flag 65,534 may be deleted",
    "edge: merging a copy of itself changes no word",
    "edge: the end only past the last shown record",
    "redoing: support by a complete even record",
    "redoing: support by abort or by propagation",
    "redoing: old targets by abort or by propagation",
    "redoing: a deleted record's targets by abort or by propagation",
    "redoing: flags as an update found them",
    "redoing: flags as a deletion found them",
    "redoing: a target referenced twice",
    "records in chains above R",
    "changed: joins",
    "changed: merges that bring nothing",
    "changed: a delta met once and again",
    "changed: refused merges",
    "changed: a value, a stamp or a flag alone",
    "changed: several registers of a record",
    "changed: added records",
    "changed: two directions that differ",
    "book: entries",
    "book: entries with empty references",
    "book: changes and strikes",
    "book: each refusal",
    "book: the order of the refusals",
    "book: records of another kind",
    "book: records of another kind, refused before",
    "book: records of another kind, refused later too",
    "book: shown milkings",
    "book: milkings that are not shown",
    "book: labels of other kinds",
    "book: numbers that no milking has",
    "book: refused searches",
    "book: capacities 0 and 4,096",
    "compare: alike",
    "compare: a clock, a value, a stamp, a flag or a record alone",
    "compare: several of these",
    "compare: each has what the other has not",
    "compare: incomplete, hidden and bare records",
    "compare: merges without room",
    "compare: before and after an edit, and its delta",
    "compare: tables of fleets",
    "compare: one word changed",
    "compare: each refusal",
    "compare: the order of the refusals",
    "compare: capacities 0 and 4,096",
    "losers: the cows of the request",
    "losers: lines of three to six",
    "losers: lines with records that do not stand",
    "losers: lines with empty references in a key",
    "losers: lines with references to and from them",
    "losers: many records with few values",
    "losers: insertions",
    "losers: updates",
    "losers: deletions",
    "losers: redoing",
    "losers: edits of the herd book",
    "losers: milkings of cows in line",
    "losers: fleets",
    "lookup: every stored label",
    "lookup: labels beside those stored",
    "lookup: deleted, incomplete and hidden records",
    "lookup: numbers that are no labels",
    "lookup: labels of other relations",
    "lookup: the last record read is damaged",
    "lookup: a record before it is damaged",
    "lookup: chains that come back to a record",
    "lookup: damage behind the last record read",
    "lookup: damage that is not on the chain",
    "lookup: records that are on no chain",
    "lookup: header words and first indices",
    "lookup: relations that are not 1 to R",
    "lookup: lengths and schemas, and the order of the refusals",
    "lookup: capacities 0 and 4,096",
    "twelve fields: F of 9 to 13, and their kinds",
    "twelve fields: key masks with fields 9 to 13",
    "twelve fields: unused fields, stamps and registers of fields 9 to 12",
    "twelve fields: merges that change one of fields 9 to 12",
    "twelve fields: merges of deltas of 13 records",
    "twelve fields: comparisons of copies that differ in one of fields 9 to 12",
    "twelve fields: lookups with damage in fields 9 to 12",
    "twelve fields: a record's twelve values",
    "twelve fields: marks and keys of fields 9 to 12",
    "twelve fields: marks and references in fields 9 to 12",
    "twelve fields: conflicts on keys of fields 9 to 12",
    "twelve fields: edits and references in fields 9 to 12",
    "twelve fields: redoing by fields 9 to 12",
    "twelve fields: deltas of 13 records",
    "twelve fields: field numbers and value counts",
    "twelve fields: fleets",
    "old words: schemas of 97 words, deltas of 196",
    "old words: tables of a length that no new one has",
    "old words: tables of a length that a new one has",
    "turned: tables made by calls and directly",
    "turned: deltas of both forms",
    "turned: old contents of the side written",
    "turned: schemas and tables at their limits",
    "turned: more than eight fields",
    "turned: schemas with one rule broken",
    "turned: headers and records with one rule broken",
    "turned: chains",
    "turned: one word changed",
    "turned: wrong lengths and unequal capacities",
    "turned: the order of the refusals",
    "turned: capacities 0 and 4,096",
    "turned: seven old records, as long as five new ones",
    "turned: merges of old tables",
];

pub fn shape_of(call: u8) -> Option<&'static Shape> {
    SHAPES.get((call as usize).checked_sub(1)?)
}

/// One call and its inputs. Marks are held as words.
#[derive(Clone, Debug, PartialEq, Eq)]
pub struct Item {
    pub category: u8,
    pub call: u8,
    pub slices: Vec<Vec<u64>>,
    pub words: Vec<u64>,
}

/// The items of a program, in their order.
pub fn of_program(program: &str, items: &[Item]) -> Vec<Item> {
    let is_its = |item: &&Item| shape_of(item.call).is_some_and(|shape| shape.program == program);
    items.iter().filter(is_its).cloned().collect()
}

/// What comes back. The exits are the lent mutable slices.
#[derive(Clone, Debug, PartialEq, Eq)]
pub struct Outcome {
    pub answer: u64,
    pub results: Vec<u64>,
    pub exits: Vec<Vec<u64>>,
}

pub fn outcome(answer: u64, results: Vec<u64>, exits: Vec<Vec<u64>>) -> Outcome {
    Outcome { answer, results, exits }
}
