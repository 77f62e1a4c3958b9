//! Merges.

use super::damage::{break_chain, break_schema, break_table, wrong_length};
use super::items::Items;
use super::sources::{accepted_edit, any_table, filled_table};
use crate::layout;
use crate::random::{self, Random, Shape as TableShape};
use crate::table::Table;
use crate::vectors::item::MERGE;

/// Two tables that share labels.
fn two_tables(random: &mut Random, schema: &[u64]) -> (Table, Table) {
    let decoded = random::decoded(schema);
    let mut shape = TableShape::small(random);
    let own = random::table(random, &decoded, &shape);
    shape.spread = random.pick(&[4, 12]);
    shape.used = random.below(9) as usize;
    shape.capacity = random.below(12) as usize;
    (own, random::table(random, &decoded, &shape))
}

/// The number of records of the merge.
fn needed(own: &Table, other: &Table) -> usize {
    crate::merge::join(own, other).records.len()
}

pub fn merges(items: &mut Items, random: &mut Random) {
    for round in 0..700 {
        let schema = random::schema(random);
        let (own, other) = match round % 4 {
            0 => (any_table(random, &schema).0, any_table(random, &schema).0),
            1 => {
                let words = any_table(random, &schema).0;
                (words.clone(), words)
            }
            _ => {
                let (mut own, other) = two_tables(random, &schema);
                own.capacity = own.capacity.max(needed(&own, &other)) + random.below(2) as usize;
                (own.words(), other.words())
            }
        };
        items.push(15, MERGE, vec![schema, own, other], vec![]);
    }
    for _ in 0..400 {
        let schema = random::schema(random);
        let (mut own, mut other) = two_tables(random, &schema);
        let least = needed(&own, &other);
        let room = [least, least, least.saturating_sub(1), least + 1];
        own.capacity = random.pick(&room).max(own.records.len());
        other.capacity = other.records.len() + random.below(3) as usize;
        items.push(17, MERGE, vec![schema, own.words(), other.words()], vec![]);
    }
    for _ in 0..300 {
        let (schema, words, own, delta) = accepted_edit(random);
        // Into the table as it was, into the edited one, or into another.
        let into = match random.below(4) {
            0 => own,
            1 => any_table(random, &schema).0,
            _ => words,
        };
        items.push(16, MERGE, vec![schema, into, delta], vec![]);
    }
    for round in 0..400 {
        let mut schema = random::schema(random);
        let (mut own, mut other) = (filled_table(random, &schema), filled_table(random, &schema));
        let which = random.below(4);
        for (bit, words) in [(1, &mut own), (2, &mut other)] {
            if (which + 1) & bit != 0 {
                if random.chance(1, 3) {
                    break_chain(random, &schema, words);
                } else {
                    break_table(random, &schema, words);
                }
            }
        }
        if round % 8 == 0 {
            break_schema(random, &mut schema);
        }
        items.push(18, MERGE, vec![schema, own, other], vec![]);
    }
    for _ in 0..120 {
        let mut schema = random::schema(random);
        let (mut own, mut other) = (any_table(random, &schema).0, any_table(random, &schema).0);
        match random.below(3) {
            0 => wrong_length(random, &mut own),
            1 => wrong_length(random, &mut other),
            _ => schema.truncate(random.pick(&[0, layout::SCHEMA - 1])),
        }
        items.push(11, MERGE, vec![schema, own, other], vec![]);
    }
}
