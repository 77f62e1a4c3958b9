//! The three edits, and the order of their refusals.

use super::damage::{break_schema, break_table};
use super::items::Items;
use super::sources::{delta_words, edit_item, filled_table, random_edit};
use crate::cases::{herd, record};
use crate::label::{label_of, LARGEST_COUNTER};
use crate::layout::{self, RECORD};
use crate::random::{self, Random, Shape as TableShape};
use crate::table::Table;
use crate::vectors::edit::Edit;
use crate::vectors::item::{DELETION, INSERTION, UPDATE};

/// The answers of each edit.
const INSERTION_ANSWERS: [u64; 11] = [0, 1, 2, 3, 5, 7, 8, 9, 11, 12, 13];

const UPDATE_ANSWERS: [u64; 10] = [0, 1, 2, 3, 6, 7, 8, 9, 12, 13];

const DELETION_ANSWERS: [u64; 7] = [0, 1, 2, 3, 6, 10, 13];

/// A table for edits; some have a clock or flags at the end.
fn edit_table(random: &mut Random, schema: &[u64]) -> Vec<u64> {
    let decoded = random::decoded(schema);
    let mut shape = TableShape::small(random);
    shape.used = 2 + random.below(8) as usize;
    shape.capacity = shape.used + random.pick(&[0, 1, 2]);
    shape.incomplete = random.pick(&[0, 0, 8]);
    shape.high_flags = random.pick(&[0, 0, 2]);
    let mut table = random::table(random, &decoded, &shape);
    if random.chance(1, 6) {
        table.clock = LARGEST_COUNTER - random.below(2);
    }
    // Flags at the end with the parity they had.
    if random.chance(1, 6) {
        for record in &mut table.records {
            record.flag = 65_534 + record.flag % 2;
        }
    }
    table.words()
}

/// Deletions and updates with a deleted group that other cows hold.
pub fn held_groups(items: &mut Items, random: &mut Random) {
    for round in 0..80 {
        let flag = random.pick(&[1, 65_533, 65_535, 65_535]);
        let first = label_of(1, 1);
        let mut records = vec![record(1, first, flag, &[12]), record(1, label_of(2, 1), 0, &[13])];
        for at in 0..2 + random.below(3) {
            let group = if at < 2 { first } else { random.pick(&[first, label_of(2, 1), 0]) };
            let flag = if at > 1 { random.below(2) } else { 0 };
            records.push(record(2, label_of(3 + at, 1), flag, &[40 + at, group]));
        }
        random.shuffle(&mut records);
        let words = Table { capacity: 7, replica: 2, clock: 9, records: records.clone() }.words();
        let cow = records.iter().position(|record| record.relation == 2).unwrap_or(0) as u64 + 1;
        let edit = if round % 2 == 0 {
            Edit::Deletion { index: cow }
        } else {
            Edit::Update { index: cow, field: 2, value: random.pick(&[0, first, label_of(2, 1)]) }
        };
        items.push_edit(23, &herd(), &words, delta_words(random), edit);
    }
}

pub fn edits(items: &mut Items, random: &mut Random) {
    let wanted = |items: &Items, least: u64| {
        let all = |call: u8, answers: &[u64]| {
            answers.iter().all(|answer| items.count_of(call, *answer) >= least)
        };
        all(INSERTION, &INSERTION_ANSWERS)
            && all(UPDATE, &UPDATE_ANSWERS)
            && all(DELETION, &DELETION_ANSWERS)
    };
    let mut tries = 0;
    while !wanted(items, 40) && tries < 400_000 {
        tries += 1;
        let mut schema = random::schema(random);
        let mut words = if random.chance(1, 4) {
            filled_table(random, &schema)
        } else {
            edit_table(random, &schema)
        };
        let mut delta = delta_words(random);
        let edit = random_edit(random, &schema, &words);
        let mut category = 23;
        if random.chance(1, 8) {
            category = 24;
            let which = random.below(8);
            if which & 1 != 0 {
                break_table(random, &schema, &mut words);
            }
            if which & 2 != 0 {
                break_schema(random, &mut schema);
            }
            if which & 4 != 0 {
                let (delta_words, one) = (layout::DELTA, RECORD);
                let wrong =
                    [0, delta_words - one, delta_words - 1, delta_words + 1, delta_words + one];
                delta.resize(random.pick(&wrong), 0);
            }
        }
        let most = if category == 23 { 130 } else { 90 };
        items.push_rare(most, edit_item(category, &schema, &words, delta, edit));
    }
}
