//! Capacities 0 and 4,096, starts, and a record's values.

use super::damage::wrong_length;
use super::items::Items;
use super::sources::{any_table, capacity, delta_words, direct_table, random_edit};
use crate::cases::{record, schema_words};
use crate::label::{label_of, LARGEST_COUNTER};
use crate::layout::{self, abort, CAPACITY, CLOCK, HEADER, PLAIN, REPLICA, USED};
use crate::random::{self, Random, Shape as TableShape};
use crate::table::{Record, Table};
use crate::vectors::item::{INSERTION, MARKS, MERGE, RECORD_VALUES, START, TABLE_CHECK, WALK};

/// A table of N = 0, well-formed or not.
fn empty_table(random: &mut Random) -> Vec<u64> {
    let mut words = vec![0; HEADER];
    words[REPLICA] = random.pick(&[0, 1, 7, 255, 256]);
    words[CLOCK] = random.pick(&[0, 5, LARGEST_COUNTER, LARGEST_COUNTER + 1]);
    if random.chance(1, 4) {
        words[USED + random.below((HEADER - USED) as u64) as usize] = 1;
    }
    words
}

pub fn capacity_zero(items: &mut Items, random: &mut Random) {
    for _ in 0..60 {
        let schema = random::schema(random);
        let empty = empty_table(random);
        let (other, _) = any_table(random, &schema);
        let delta = delta_words(random);
        items.push(12, TABLE_CHECK, vec![schema.clone(), empty.clone()], vec![]);
        items.push(12, MARKS, vec![schema.clone(), empty.clone(), vec![]], vec![]);
        items.push(12, WALK, vec![schema.clone(), empty.clone(), vec![]], vec![random.below(2)]);
        items.push(12, MERGE, vec![schema.clone(), empty.clone(), other.clone()], vec![]);
        items.push(12, MERGE, vec![schema.clone(), other, empty.clone()], vec![]);
        let slices = vec![schema, empty.clone(), delta, vec![1]];
        items.push(12, INSERTION, slices, vec![1]);
        items.push(12, START, vec![empty], vec![random.below(3)]);
    }
}

/// A full chain of nodes by abort, newest first even, the others odd.
fn chain_table(used: u64, capacity: usize) -> Table {
    let records: Vec<Record> = (1..=used)
        .map(|at| record(1, label_of(at, 1), (at < used) as u64, &[label_of(at - 1, 1)]))
        .collect();
    Table { capacity, replica: 1, clock: used, records }
}

pub fn capacity_largest(items: &mut Items, random: &mut Random) {
    let schema = schema_words(&[(&[abort(1)], 0, 0)]);
    let full = chain_table(CAPACITY as u64, CAPACITY).words();
    items.push(13, TABLE_CHECK, vec![schema.clone(), full.clone()], vec![]);
    items.push(13, MARKS, vec![schema.clone(), full.clone(), vec![0; CAPACITY]], vec![]);
    let plain = schema_words(&[(&[PLAIN], 1, 0)]);
    let part = |from: u64, count: u64, capacity: usize| {
        let records = (0..count).map(|at| record(1, label_of(from + at, 1), 0, &[at])).collect();
        Table { capacity, replica: 1, clock: from + count, records }.words()
    };
    let half_of = CAPACITY as u64 / 2;
    let half = part(1, half_of, CAPACITY);
    let rest = |from: u64, count: u64| part(from, count, count as usize);
    for other in
        [rest(half_of + 1, half_of), rest(half_of, half_of + 1), rest(half_of + 1, half_of + 1)]
    {
        items.push(13, MERGE, vec![plain.clone(), half.clone(), other], vec![]);
    }
    for round in 0..12 {
        let schema = random::schema(random);
        let decoded = random::decoded(&schema);
        let mut shape = TableShape::small(random);
        shape.capacity = CAPACITY;
        let mut words = random::table(random, &decoded, &shape).words();
        if round == 11 {
            words[layout::table(CAPACITY) - 1] = 1;
        }
        let marks = vec![0; CAPACITY];
        let small = direct_table(random, &schema);
        items.push(13, TABLE_CHECK, vec![schema.clone(), words.clone()], vec![]);
        items.push(13, MARKS, vec![schema.clone(), words.clone(), marks], vec![]);
        items.push(13, MERGE, vec![schema.clone(), words.clone(), small.clone()], vec![]);
        items.push(13, MERGE, vec![schema.clone(), small, words.clone()], vec![]);
        items.push(13, START, vec![words.clone()], vec![random.pick(&[0, 1, 255])]);
        let edit = random_edit(random, &schema, &words);
        items.push_edit(13, &schema, &words, vec![0; layout::DELTA], edit);
        words.resize(layout::table(CAPACITY + 1), 0);
        items.push(13, TABLE_CHECK, vec![schema, words.clone()], vec![]);
        items.push(13, START, vec![words], vec![1]);
    }
}

pub fn starts_and_values(items: &mut Items, random: &mut Random) {
    for _ in 0..150 {
        let schema = random::schema(random);
        let (mut words, _) = any_table(random, &schema);
        if random.chance(1, 3) {
            let at = random.below(words.len() as u64) as usize;
            words[at] = random.next();
        }
        let category = if random.chance(1, 4) {
            wrong_length(random, &mut words);
            11
        } else {
            14
        };
        let used = words.get(USED).copied().unwrap_or(0);
        let some = 1 + random.below(255);
        let replica = random.pick(&[0, 1, 2, 255, 256, u64::MAX, some]);
        items.push(category, START, vec![words.clone()], vec![replica]);
        let wrong = [0, used, used.wrapping_add(1), capacity(&words) as u64 + 1, u64::MAX];
        let index = random.pick(&wrong);
        items.push(category, RECORD_VALUES, vec![words.clone()], vec![index]);
        let index = 1 + random.below(used.max(1));
        items.push(category, RECORD_VALUES, vec![words.clone()], vec![index]);
        if words.len() > USED {
            words[USED] = random.pick(&[capacity(&words) as u64 + 1, u64::MAX, 0]);
            let index = random.pick(&[1, capacity(&words) as u64, capacity(&words) as u64 + 1]);
            items.push(14, RECORD_VALUES, vec![words], vec![index]);
        }
    }
}
