//! The tables that are measured: a barn under the herd book's schema, and the worst cases of the shown list.

use herd::book::{CLEANING, COW, GROUP, MILKING, ROBOT, SCHEMA, TREATMENT};
use herd::{SchemaBuilder, FIELDS, MOST_KEY_FIELDS};
use second::cases::record;
use second::label_of;
use second::random::Random;
use second::table::{Record, Table};

/// A schema and tables under it.
pub struct Subject {
    pub name: &'static str,
    pub schema: Vec<u64>,
    /// All records: as many as the capacity.
    pub full: Vec<u64>,
    /// Two tables that have all records together and share nine tenths of them.
    pub own: Vec<u64>,
    pub other: Vec<u64>,
    /// All records but the youngest, so that there is room for one.
    pub edited: Vec<u64>,
}

/// The relation of the tables that have one.
pub const ONLY: usize = 1;

/// The relations of the tables with a short chain, of which one has so many records at each size.
pub const SHORT: usize = 1;
const LONG: usize = 2;
const SHORT_RECORDS: usize = 32;

fn built(schema: SchemaBuilder) -> Vec<u64> {
    schema.build().expect("the schema is not broken").words().to_vec()
}

fn words(capacity: usize, replica: u64, clock: u64, records: Vec<Record>) -> Vec<u64> {
    Table { capacity, replica, clock, records }.words()
}

/// One in 64 records a group, one in 128 a robot, one in 6 a cow, the rest milkings, some cleanings and
/// treatments. One record in 50 is deleted.
pub fn barn(capacity: usize, random: &mut Random) -> Vec<Record> {
    let groups = (capacity / 64).max(1);
    let robots = (capacity / 128).max(1);
    let cows = (capacity / 6).max(1);
    let mut counter = 0;
    let mut next = || {
        counter += 1;
        label_of(counter, 1 + counter % 3)
    };
    let group: Vec<u64> = (0..groups).map(|_| next()).collect();
    let robot: Vec<u64> = (0..robots).map(|_| next()).collect();
    let cow: Vec<u64> = (0..cows).map(|_| next()).collect();
    let mut records = Vec::new();
    for (at, label) in group.iter().enumerate() {
        records.push(record(GROUP as u64, *label, 0, &[at as u64 + 1]));
    }
    for (at, label) in robot.iter().enumerate() {
        records.push(record(ROBOT as u64, *label, 0, &[at as u64 + 1]));
    }
    for (at, label) in cow.iter().enumerate() {
        let tag = 1000 + at as u64;
        let flag = random.chance(1, 50) as u64;
        records.push(record(COW as u64, *label, flag, &[tag, 500_000 + tag, random.pick(&group)]));
    }
    while records.len() < capacity {
        let label = next();
        let minute = random.below(500_000);
        let flag = random.chance(1, 50) as u64;
        let made = match random.below(10) {
            0 => record(CLEANING as u64, label, flag, &[random.pick(&robot), minute, minute + 12]),
            1 => record(TREATMENT as u64, label, flag, &[random.pick(&cow), minute, minute + 7000]),
            _ => {
                let grams = 6000 + random.below(9000);
                record(
                    MILKING as u64,
                    label,
                    flag,
                    &[
                        random.pick(&cow),
                        random.pick(&robot),
                        grams,
                        370 + random.below(25),
                        minute,
                    ],
                )
            }
        };
        records.push(made);
    }
    records
}

fn shared(
    name: &'static str,
    schema: Vec<u64>,
    capacity: usize,
    records: Vec<Record>,
    random: &mut Random,
) -> Subject {
    let clock = capacity as u64 + 10;
    // Records stand in the order in which they were made, as in a table that took them in one by one.
    let left = capacity / 20;
    let mut order: Vec<usize> = (0..capacity).collect();
    random.shuffle(&mut order);
    let without = |gone: &[usize]| -> Vec<Record> {
        let mut kept = vec![true; capacity];
        gone.iter().for_each(|at| kept[*at] = false);
        let chosen = records.iter().zip(&kept).filter(|(_, kept)| **kept);
        chosen.map(|(record, _)| record.clone()).collect()
    };
    let full = words(capacity, 1, clock, without(&[]));
    let own = words(capacity, 1, clock, without(&order[..left]));
    let other = words(capacity, 2, clock, without(&order[left..2 * left]));
    let youngest = (0..capacity).max_by_key(|at| records[*at].label);
    let edited = words(capacity, 1, clock, without(youngest.as_slice()));
    Subject { name, schema, full, own, other, edited }
}

pub fn barn_subject(capacity: usize) -> Subject {
    let mut random = Random::new(7);
    let records = barn(capacity, &mut random);
    shared("barn", SCHEMA.words().to_vec(), capacity, records, &mut random)
}

/// All records in one relation, with two keys and no two alike.
pub fn keys_subject(capacity: usize) -> Subject {
    let mut random = Random::new(8);
    let records = (1..=capacity as u64)
        .map(|at| record(ONLY as u64, label_of(at, 1 + at % 3), 0, &[3 * at, 7 * at, at]))
        .collect();
    let schema = SchemaBuilder::new().relation().plain().plain().plain().key(&[1]).key(&[2]);
    shared("two keys", built(schema), capacity, records, &mut random)
}

/// A chain of 32 records at each size, which stand anywhere between those of another chain.
pub fn short_subject(capacity: usize) -> Subject {
    let mut random = Random::new(13);
    let mut relations = vec![LONG; capacity];
    relations[..SHORT_RECORDS].fill(SHORT);
    random.shuffle(&mut relations);
    let records = (1..=capacity as u64)
        .zip(relations)
        .map(|(at, of)| record(of as u64, label_of(at, 1 + at % 3), 0, &[at, 7 * at]))
        .collect();
    let schema = SchemaBuilder::new().relation().plain().plain().relation().plain().plain();
    shared("short chain", built(schema), capacity, records, &mut random)
}

/// Values that are different and have one sum of their halves: they have the same digest.
fn alike(at: u64) -> u64 {
    const SUM: u64 = 1 << 20;
    (at << 32) + SUM - at
}

/// A record's values that differ from those of the others in the last field alone.
pub fn alike_values(at: u64) -> Vec<u64> {
    let mut values = vec![7; FIELDS];
    values[FIELDS - 1] = alike(at);
    values
}

/// The last four fields are the key, twice.
fn alike_keys(schema: SchemaBuilder) -> SchemaBuilder {
    let key = [FIELDS - 3, FIELDS - 2, FIELDS - 1, FIELDS];
    schema.key(&key).key(&key)
}

/// All records in one relation, with as many fields as there can be and two keys of four fields, no two alike, and all in one bucket
/// of step 3: it compares each record with all older ones, on every field.
pub fn bucket_subject(capacity: usize) -> Subject {
    let mut random = Random::new(10);
    let records = (1..=capacity as u64)
        .map(|at| record(ONLY as u64, label_of(at, 1 + at % 3), 0, &alike_values(at)))
        .collect();
    let schema = (0..FIELDS).fold(SchemaBuilder::new().relation(), |schema, _| schema.plain());
    shared("one bucket", built(alike_keys(schema)), capacity, records, &mut random)
}

/// The target of a record of a chain: the one before it, and of the first one none that there is.
fn target(at: u64, capacity: usize) -> u64 {
    label_of(if at == 1 { capacity as u64 + 5 } else { at - 1 }, 1)
}

/// Each record references the one before it by abort, a chain as long as the table whose first reference finds no record. The
/// records stand in the reverse order, so that a round of step 4 drops one of them.
pub fn chain_subject(capacity: usize) -> Subject {
    let mut random = Random::new(9);
    let records = (1..=capacity as u64)
        .rev()
        .map(|at| record(ONLY as u64, label_of(at, 1), 0, &[target(at, capacity), at]))
        .collect();
    let schema = SchemaBuilder::new().relation().abort(ONLY).plain();
    shared("chain", built(schema), capacity, records, &mut random)
}

/// A chain of records whose keys are all in one bucket, by all fields that are not the key's: the worst of step 3 and of step 4.
pub fn both_subject(capacity: usize) -> Subject {
    let mut random = Random::new(11);
    let records = (1..=capacity as u64)
        .rev()
        .map(|at| {
            let mut values = alike_values(at);
            values[..FIELDS - MOST_KEY_FIELDS].fill(target(at, capacity));
            record(ONLY as u64, label_of(at, 1), 0, &values)
        })
        .collect();
    let schema = SchemaBuilder::new().relation();
    let schema = (MOST_KEY_FIELDS..FIELDS).fold(schema, |schema, _| schema.abort(ONLY));
    let schema = (0..MOST_KEY_FIELDS).fold(schema, |schema, _| schema.plain());
    shared("chain in one bucket", built(alike_keys(schema)), capacity, records, &mut random)
}
