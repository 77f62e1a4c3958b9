//! A loser blocks nobody: marks and walks of records that lose a key.

use super::items::Items;
use super::lines::{schemas, Line, Order, ORDERS};
use super::sources::{capacity, marks_words};
use crate::cases::{record, schema_words, table_of};
use crate::label::label_of;
use crate::layout::{abort, propagation, CAPACITY, PLAIN};
use crate::random::{self, Random};
use crate::schema::{Kind, Schema};
use crate::table::{Record, Table};
use crate::vectors::item::{Item, MARKS, WALK};

const REQUEST: u8 = 75;
const LINES: u8 = 76;
const STARTS: u8 = 77;
const EMPTY: u8 = 78;
const REFERENCES: u8 = 79;
const CROWDED: u8 = 80;

/// How many tables each case has.
const ENOUGH: u64 = 72;

/// Pushes walks over marks from place 0 to the end.
pub fn walks(items: &mut Items, category: u8, schema: &[u64], words: &[u64], marks: &[u64]) {
    let mut place = None;
    let mut next = 0;
    while place != Some(next) {
        let slices = vec![schema.to_vec(), words.to_vec(), marks.to_vec()];
        let item = Item { category, call: WALK, slices, words: vec![next] };
        place = Some(next);
        next = items.tried(&item).results[1];
        items.push_item(item);
    }
}

/// Pushes the marks of a line, which must be as the line tells, and of some the walks over them.
fn list(items: &mut Items, line: &mut Line, category: u8) {
    let (item, marks) = line.marks_item(category);
    assert_eq!(items.tried(&item).exits[0], marks, "{:?}", item);
    if line.random.chance(1, 12) {
        walks(items, category, &item.slices[0], &item.slices[1], &marks);
    }
    items.push_item(item);
}

/// The cows of the request, with each order of their labels and of the keys: all of them, with one
/// deleted, and with a fourth.
fn request(items: &mut Items, random: &mut Random) {
    let orders = [[1, 2, 3], [1, 3, 2], [2, 1, 3], [2, 3, 1], [3, 1, 2], [3, 2, 1]];
    for (masks, replicas) in [(1, 2), (2, 1)].into_iter().flat_map(|of| orders.map(|to| (of, to))) {
        let schema = schema_words(&[(&[PLAIN], 1, 0), (&[PLAIN, PLAIN], masks.0, masks.1)]);
        for deleted in [0, 1, 2, 3, 4] {
            let cow = |at: usize, values: &[u64]| {
                record(2, label_of(2, replicas[at]), (deleted == at + 1) as u64, values)
            };
            let mut records = vec![cow(0, &[40, 7]), cow(1, &[40, 8]), cow(2, &[41, 8])];
            if deleted == 4 {
                records.push(record(2, label_of(3, 1), 0, &[41, 9]));
            }
            random.shuffle(&mut records);
            let capacity = records.len();
            let words = Table { capacity, replica: 1, clock: 3, records }.words();
            let marks = marks_words(random, capacity);
            items.push(REQUEST, MARKS, vec![schema.clone(), words, marks], vec![]);
        }
    }
}

/// Lines of three to six records that all stand.
fn lines(items: &mut Items, random: &mut Random) {
    for schema in schemas() {
        for length in 3..=6 {
            for order in ORDERS.into_iter().chain([Order::Any]) {
                let mut line = Line::new(random, schema.clone(), length, order);
                list(items, &mut line, LINES);
            }
        }
    }
}

/// A line of 4,096 records: every second one is kept.
fn longest(items: &mut Items) {
    let schema = schemas()[0].clone();
    let cow = |at: u64| record(2, label_of(1 + at, 1 + at % 3), 0, &[at.div_ceil(2), at / 2, 0]);
    let most = CAPACITY as u64;
    let words = table_of(most, (0..most).rev().map(cow).collect()).words();
    let slices = vec![schema, words, vec![0; CAPACITY]];
    let item = Item { category: LINES, call: MARKS, slices, words: vec![] };
    assert_eq!(items.tried(&item).results, [most / 2]);
    items.push_item(item);
}

/// A line of three to six records.
fn some_line<'a>(random: &'a mut Random, schemas: &[Vec<u64>]) -> Line<'a> {
    let schema = random::pick_schema(random, schemas);
    let length = 3 + random.below(4) as usize;
    let order = random.pick(&ORDERS);
    Line::new(random, schema, length, order)
}

/// The oldest record in line, or another one, is deleted or incomplete; or it is deleted and stands
/// since another record references it by abort.
fn starts(items: &mut Items, random: &mut Random) {
    for round in 0..ENOUGH {
        let mut line = some_line(random, &schemas());
        let mut places: Vec<usize> = (0..line.length).collect();
        line.random.shuffle(&mut places);
        if round % 2 == 0 {
            places.sort_by_key(|at| line.records[*at].label);
        }
        for at in &places[..1 + line.random.below(2) as usize] {
            if line.random.chance(1, 3) {
                line.hold(*at);
            } else {
                line.hide(*at);
            }
        }
        list(items, &mut line, STARTS);
    }
}

/// Some records in line do not conflict with the next, since a reference of the key is empty.
fn empty(items: &mut Items, random: &mut Random) {
    for _ in 0..ENOUGH {
        let mut line = some_line(random, &schemas()[2..6]);
        let first = line.random.below(2) as usize;
        for at in (first..line.length - 1).step_by(1 + line.random.below(3) as usize) {
            line.unlink(at);
        }
        list(items, &mut line, EMPTY);
    }
}

/// References to kept and to dropped records, and kept ones that step 4 loses.
fn references(items: &mut Items, random: &mut Random) {
    for _ in 0..ENOUGH {
        let mut line = some_line(random, &schemas());
        for at in 0..line.length {
            match line.random.below(6) {
                0 => line.lose(at),
                1 => line.hold(at),
                2 => line.reference(at, true),
                3 | 4 => line.reference(at, false),
                _ => {}
            }
        }
        list(items, &mut line, REFERENCES);
    }
}

/// Records that reference records of their own relation, in a key and beside it.
fn own_references() -> Vec<u64> {
    schema_words(&[
        (&[abort(1), PLAIN, PLAIN], 0b010, 0b100),
        (&[abort(2), PLAIN, propagation(1)], 0b001, 0b010),
    ])
}

/// A value of a field: one of few.
fn value(random: &mut Random, kind: Kind, names: &[(u64, u64)]) -> u64 {
    let Some(target) = kind.target() else {
        return random.below(1 + names.len() as u64 / 2);
    };
    let known: Vec<u64> = names.iter().filter(|of| of.0 == target).map(|of| of.1).collect();
    match random.below(8) {
        0 => 0,
        1 => label_of(1 + random.below(9), 9),
        _ if known.is_empty() => 0,
        _ => random.pick(&known),
    }
}

/// Many records with few values under two keys.
fn crowd(random: &mut Random, schema: &Schema) -> Table {
    let used = 5 + random.below(8);
    let mut names = Vec::new();
    for at in 0..used {
        let relation = if random.chance(1, 5) { 1 } else { 2 };
        names.push((relation, label_of(1 + at / 2, 1 + at % 2 + 2 * random.below(3))));
    }
    random.shuffle(&mut names);
    let mut records: Vec<Record> = Vec::new();
    for (relation, label) in &names {
        let kinds = schema.relation(*relation).map_or(vec![], |of| of.kinds.clone());
        let values: Vec<u64> = kinds.iter().map(|kind| value(random, *kind, &names)).collect();
        records.push(record(*relation, *label, random.pick(&[0, 0, 0, 2, 1]), &values));
    }
    let clock = random::least_clock(schema, &records);
    Table { capacity: records.len(), replica: 1, clock, records }
}

fn crowded(items: &mut Items, random: &mut Random) {
    for _ in 0..2 * ENOUGH {
        let all = [&schemas()[..4], &[own_references(), own_references()]].concat();
        let schema = random::pick_schema(random, &all);
        let words = crowd(random, &random::decoded(&schema)).words();
        let lent = marks_words(random, capacity(&words));
        let slices = vec![schema.clone(), words.clone(), lent];
        let item = Item { category: CROWDED, call: MARKS, slices, words: vec![] };
        if random.chance(1, 16) {
            let marks = items.tried(&item).exits.concat();
            walks(items, CROWDED, &schema, &words, &marks);
        }
        items.push_item(item);
    }
}

pub fn losers(items: &mut Items, random: &mut Random) {
    request(items, random);
    lines(items, random);
    longest(items);
    starts(items, random);
    empty(items, random);
    references(items, random);
    crowded(items, random);
}
