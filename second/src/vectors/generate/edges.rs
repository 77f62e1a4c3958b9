//! The sentences of "Edges", each as a category of its own.

use super::items::Items;
use super::sources::capacity;
use crate::cases::{herd, record, GROUP};
use crate::label::{label_of, LARGEST_COUNTER, LARGEST_FLAG};
use crate::layout::{self, HEADER};
use crate::random::{self, Random, Shape};
use crate::table::Table;
use crate::vectors::item::{DELETION, INSERTION, MARKS, MERGE, START, WALK};

const ROOM: u8 = 26;
const FULL: u8 = 27;
const NONE: u8 = 28;
const CLOCK: u8 = 29;
const FLAG: u8 = 30;
const COPY: u8 = 31;
const END: u8 = 32;

/// How many tables each sentence has.
const ENOUGH: u64 = 25;

/// Groups with the names 1 to `used`.
fn groups(used: u64, capacity: usize, clock: u64, flag: u64) -> Table {
    let records = (1..=used).map(|at| record(GROUP, label_of(at, 2), flag, &[at])).collect();
    Table { capacity, replica: 3, clock, records }
}

fn insert(items: &mut Items, category: u8, table: &Table, name: u64) -> u64 {
    let slices = vec![herd(), table.words(), vec![7; layout::DELTA], vec![name]];
    items.push(category, INSERTION, slices, vec![GROUP])
}

fn inserts(items: &mut Items) {
    for used in 0..ENOUGH {
        let room = insert(items, ROOM, &groups(used, used as usize + 1, 40, 0), used + 1);
        assert_eq!(room, 0);
        let full = insert(items, FULL, &groups(used, used as usize, 40, 0), used + 1);
        assert_eq!(full, 11);
        let before = insert(items, CLOCK, &groups(used, 40, LARGEST_COUNTER - 1, 0), used + 1);
        assert_eq!(before, 0);
        let spent = insert(items, CLOCK, &groups(used, 40, LARGEST_COUNTER, 0), used + 1);
        assert_eq!(spent, 12);
    }
}

fn none(items: &mut Items, random: &mut Random) {
    for replica in 1..=ENOUGH {
        let mut words: Vec<u64> = (0..HEADER).map(|_| random.below(9)).collect();
        assert_eq!(items.push(NONE, START, vec![words.clone()], vec![replica]), 0);
        let _ = crate::start(&mut words, replica);
        let slices = vec![random::schema(random), words, vec![]];
        assert_eq!(items.push(NONE, MARKS, slices.clone(), vec![]), 0);
        assert_eq!(items.push(NONE, WALK, slices, vec![0]), 0);
    }
}

fn flags(items: &mut Items) {
    for index in 1..=ENOUGH {
        let table = groups(ENOUGH, ENOUGH as usize, 40, LARGEST_FLAG - 1);
        let slices = vec![herd(), table.words(), vec![7; layout::DELTA]];
        assert_eq!(items.push(FLAG, DELETION, slices, vec![index]), 0);
    }
}

fn some_table(random: &mut Random, schema: &[u64]) -> Vec<u64> {
    let shape = Shape::small(random);
    random::table(random, &random::decoded(schema), &shape).words()
}

fn copies(items: &mut Items, random: &mut Random) {
    for _ in 0..ENOUGH {
        let schema = random::schema(random);
        let words = some_table(random, &schema);
        let slices = vec![schema, words.clone(), words];
        assert_eq!(items.push(COPY, MERGE, slices, vec![]), 0);
    }
}

/// Walks from place 0 and on from each record that was given, to the end and once more.
fn ends(items: &mut Items, random: &mut Random) {
    for _ in 0..ENOUGH {
        let schema = random::schema(random);
        let words = some_table(random, &schema);
        let mut bytes = vec![0; capacity(&words)];
        let _ = crate::marks(&schema, &words, &mut bytes);
        let marks: Vec<u64> = bytes.iter().map(|mark| *mark as u64).collect();
        let mut place = 0;
        loop {
            let before = place;
            items.push(END, WALK, vec![schema.clone(), words.clone(), marks.clone()], vec![place]);
            let _ = crate::walk(&schema, &words, &bytes, &mut place);
            if place == before {
                break;
            }
        }
    }
}

pub fn edges(items: &mut Items, random: &mut Random) {
    inserts(items);
    none(items, random);
    flags(items);
    copies(items, random);
    ends(items, random);
}
