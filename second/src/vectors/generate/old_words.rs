//! Words in the old form, of eight fields, lent to the calls.

use super::book_tables::Made;
use super::chains::item as lookup_item;
use super::items::Items;
use super::sources::{capacity, delta_words, edit_item, filled_table, marks_words};
use crate::book::GROUP;
use crate::label::{label_of, Register};
use crate::layout::{self, NEW, OLD, RELATION_COUNT};
use crate::random::{self, Random, Shape};
use crate::table::{Record, Table};
use crate::vectors::edit::Edit;
use crate::vectors::item::{
    Item, BOOK_CHANGE, BOOK_ENTER, BOOK_FIND, BOOK_STRIKE, COMPARE, MARKS, MERGE, RECORD_VALUES,
    SCHEMA_CHECK, START, TABLE_CHECK, WALK,
};

const SHORT: u8 = 119;
const NO_LENGTH: u8 = 120;
const LENGTH: u8 = 121;

/// How many tables each case has.
const ENOUGH: u64 = 12;
const FEW: u64 = 4;

/// So many old records, of 20 words each, are as long as five new ones, of 28.
const SEVEN: usize = 7;

/// A schema in the old form and in the new.
fn schemas(random: &mut Random) -> [Vec<u64>; 2] {
    let blocks = random::blocks(random, OLD.fields);
    [OLD, NEW].map(|form| random::encoded(form, &blocks))
}

/// A table of this capacity with records.
fn filled(random: &mut Random, schema: &[u64], capacity: usize) -> Table {
    let used = 1 + random.below(capacity.min(6) as u64) as usize;
    let shape = Shape { used, capacity, base: 0, ..Shape::small(random) };
    random::table(random, &random::decoded(schema), &shape)
}

fn item(category: u8, call: u8, slices: &[&[u64]], words: &[u64]) -> Item {
    let slices = slices.iter().map(|slice| slice.to_vec()).collect();
    Item { category, call, slices, words: words.to_vec() }
}

/// One of the three edits.
fn edit(round: u64) -> Edit {
    match round % 3 {
        0 => Edit::Insertion { relation: 1, values: vec![0] },
        1 => Edit::Update { index: 1, field: 1, value: 0 },
        _ => Edit::Deletion { index: 1 },
    }
}

/// A schema of 97 words, a delta of 196 words that is taken in, and one that is lent to an edit.
fn short(items: &mut Items, random: &mut Random) {
    for round in 0..ENOUGH {
        let [old, new] = schemas(random);
        let own = filled_table(random, &new);
        let delta = filled(random, &new, OLD.delta_capacity()).words_in(OLD);
        items.push_with(1, item(SHORT, SCHEMA_CHECK, &[&old], &[]));
        items.push_with(1, item(SHORT, TABLE_CHECK, &[&old, &own], &[]));
        items.push_with(1, item(SHORT, MERGE, &[&new, &own, &delta], &[]));
        items.push_with(1, edit_item(SHORT, &new, &own, delta.clone(), edit(round)));
        let own = Made::stocked(random).table(1).words();
        items.push_with(
            1,
            match round % 3 {
                0 => item(SHORT, BOOK_ENTER, &[&own, &delta, &[1]], &[GROUP]),
                1 => item(SHORT, BOOK_CHANGE, &[&own, &delta], &[GROUP, 1, 1, 0]),
                _ => item(SHORT, BOOK_STRIKE, &[&own, &delta], &[GROUP, 1]),
            },
        );
    }
}

/// Tables whose length is that of no new one.
fn no_length(items: &mut Items, random: &mut Random) {
    for (round, records) in (1..2 * SEVEN).filter(|records| records % SEVEN != 0).enumerate() {
        let [_, new] = schemas(random);
        let old = filled(random, &new, records).words_in(OLD);
        let other = filled_table(random, &new);
        let mut push = |item: Item| items.push_with(1, item);
        push(item(NO_LENGTH, TABLE_CHECK, &[&new, &old], &[]));
        push(item(NO_LENGTH, START, &[&old], &[1]));
        push(item(NO_LENGTH, RECORD_VALUES, &[&old], &[1]));
        push(item(NO_LENGTH, MERGE, &[&new, &old, &other], &[]));
        push(item(NO_LENGTH, MERGE, &[&new, &other, &old], &[]));
        let marks = marks_words(random, records);
        push(match round % 4 {
            0 => item(NO_LENGTH, COMPARE, &[&new, &other, &old], &[]),
            1 => lookup_item(NO_LENGTH, &new, &old, 1, label_of(1, 1)),
            2 => item(NO_LENGTH, MARKS, &[&new, &old, &marks], &[]),
            _ => item(NO_LENGTH, WALK, &[&new, &old, &marks], &[0]),
        });
        let delta = delta_words(random);
        push(edit_item(NO_LENGTH, &new, &old, delta, edit(round as u64)));
        let mut book = Made::stocked(random).table(1);
        book.capacity = book.capacity.next_multiple_of(SEVEN) + 1;
        push(item(NO_LENGTH, BOOK_FIND, &[&book.words_in(OLD)], &[label_of(1, 1)]));
    }
}

/// Tables whose length is also that of a new one: without records they are new tables, and with one
/// record that has flag and label alone; otherwise they are judged by their words.
fn length(items: &mut Items, random: &mut Random) {
    for round in 0..3 * FEW {
        let [_, new] = schemas(random);
        let table = filled(random, &new, SEVEN * (1 + round as usize % 3));
        let empty = Table { records: vec![], ..table.clone() }.words_in(OLD);
        let relation = 1 + random.below(new[RELATION_COUNT]);
        let fields = random::decoded(&new).relation(relation).map_or(0, |of| of.kinds.len());
        let (label, registers) = (label_of(1, 1), vec![Register::default(); fields]);
        let bare = Record { relation, label, flag: random.below(4), registers };
        let clock = table.clock.max(1);
        let bare = Table { clock, records: vec![bare], ..table.clone() }.words_in(OLD);
        let marks = marks_words(random, capacity(&empty));
        for words in [&empty, &bare] {
            items.push_with(0, item(LENGTH, TABLE_CHECK, &[&new, words], &[]));
            items.push_with(0, item(LENGTH, MARKS, &[&new, words, &marks], &[]));
            items.push_with(0, lookup_item(LENGTH, &new, words, relation, label));
        }
        items.push_with(0, item(LENGTH, COMPARE, &[&new, &empty, &bare], &[]));
        items.push_with(0, item(LENGTH, MERGE, &[&new, &empty, &bare], &[]));
        let filled = table.words_in(OLD);
        items.push_item(item(LENGTH, TABLE_CHECK, &[&new, &filled], &[]));
        items.push_item(item(LENGTH, MERGE, &[&new, &filled, &empty], &[]));
        items.push_item(item(LENGTH, MERGE, &[&new, &empty, &filled], &[]));
        items.push_with(0, item(LENGTH, RECORD_VALUES, &[&filled], &[1]));
        items.push_with(0, item(LENGTH, START, &[&filled], &[1]));
        items.push_item(edit_item(LENGTH, &new, &filled, delta_words(random), edit(round)));
        let slices: [&[u64]; 3] = [&empty, &vec![0; layout::DELTA], &[round]];
        items.push_with(0, item(LENGTH, BOOK_ENTER, &slices, &[GROUP]));
    }
}

pub fn old_words(items: &mut Items, random: &mut Random) {
    short(items, random);
    no_length(items, random);
    length(items, random);
}
