//! Inputs of the list program: the worked example, the stored runs, and seeded random and damaged
//! ones. Each has a name.

use crate::cases::{
    self, bytes_of, herd, herd_in, record, schema_words, table_of, COW, GROUP, MILKING,
};
use crate::label::{label_of, LARGEST_COUNTER, LARGEST_REPLICA};
use crate::layout::{
    self, abort, propagation, FIELDS, FIELD_COUNT, LIST_CAPACITY, OLD, PLAIN, WORD,
};
use crate::random::{self, Random, Shape};
use crate::table::{Record, Table};
use crate::vectors::called_table;
use crate::{deletion, insertion, merge, start};

fn input(schema: &[u64], table: &[u64]) -> Vec<u8> {
    [bytes_of(schema), bytes_of(table)].concat()
}

/// A robot: its table under the schema of groups, cows and milkings.
struct Robot {
    table: Vec<u64>,
}

impl Robot {
    fn new(replica: u64) -> Robot {
        let mut table = vec![0; layout::table(16)];
        let _ = start(&mut table, replica);
        Robot { table }
    }

    /// The label of the record entered.
    fn enter(&mut self, relation: u64, values: &[u64]) -> u64 {
        let mut delta = vec![0; layout::DELTA];
        insertion(&herd(), &mut self.table, &mut delta, relation, values).unwrap_or(0)
    }

    fn strike(&mut self, index: u64) {
        let mut delta = vec![0; layout::DELTA];
        let _ = deletion(&herd(), &mut self.table, &mut delta, index);
    }

    fn take(&mut self, other: &Robot) {
        let _ = merge(&herd(), &mut self.table, &other.table);
    }
}

/// The worked example. examples/README.md tells what happens in the barn.
pub fn barn() -> Vec<u8> {
    let mut first = Robot::new(1);
    let north = first.enter(GROUP, &[1]);
    let south = first.enter(GROUP, &[2]);
    let cow = first.enter(COW, &[4711, north]);
    let mut second = Robot::new(2);
    second.take(&first);
    first.strike(2);
    first.enter(COW, &[4712, 0]);
    first.enter(MILKING, &[cow, 12_400]);
    let heifer = second.enter(COW, &[4713, south]);
    let twice = second.enter(COW, &[4712, north]);
    second.enter(MILKING, &[twice, 9_800]);
    second.enter(MILKING, &[heifer, 11_250]);
    first.take(&second);
    input(&herd(), &first.table)
}

/// A table of as many records as are taken, which are all shown: groups, and cows in them.
fn full() -> Table {
    let mut records: Vec<Record> = Vec::new();
    for at in 1..=LIST_CAPACITY as u64 {
        let label = label_of(at, 1 + at % 255);
        let group = label_of(1 + (at - 1) / 3 * 3, 1 + (1 + (at - 1) / 3 * 3) % 255);
        records.push(match at % 3 {
            1 => record(GROUP, label, 0, &[u64::MAX - at]),
            _ => record(COW, label, 0, &[at, group]),
        });
    }
    table_of(LARGEST_COUNTER, records)
}

/// The cows of request F-5: ear tag and transponder, each a key.
fn losers() -> Vec<u8> {
    let schema = schema_words(&[(&[PLAIN, PLAIN], 0b01, 0b10)]);
    let values = [[40, 7], [40, 8], [41, 8]];
    let cows = (1..).zip(values).map(|(replica, of)| record(1, label_of(2, replica), 0, &of));
    input(&schema, &table_of(2, cows.collect()).words())
}

/// As many records as are taken, each with the longest line: twelve values of 20 digits.
fn longest() -> Vec<u8> {
    let schema = schema_words(&[(&[PLAIN; FIELDS], 0, 0)]);
    let label = |at: u64| label_of(LARGEST_COUNTER - at, LARGEST_REPLICA);
    let values: Vec<u64> = (0..FIELDS as u64).map(|field| u64::MAX - field).collect();
    let records = (0..LIST_CAPACITY as u64).map(|at| record(1, label(at), 0, &values));
    input(&schema, &table_of(LARGEST_COUNTER, records.collect()).words())
}

/// References in fields 9 to 12: to a deleted record by abort, which stands; to a record by
/// propagation; an empty one; and to what is not there.
fn new_fields() -> Vec<u8> {
    let mut kinds = [PLAIN; FIELDS];
    kinds[8..].copy_from_slice(&[propagation(1), PLAIN, abort(1), abort(1)]);
    let schema = schema_words(&[(&[PLAIN], 0, 0), (&kinds, 0, 0)]);
    let labels = [1, 2, 3, 4, 5].map(|counter| label_of(counter, 1));
    let treatment = |label: u64, last: [u64; 4]| {
        record(2, label, 0, &[[1, 2, 3, 4, 5, 6, 7, 8].as_slice(), &last].concat())
    };
    let records = vec![
        record(1, labels[0], 1, &[40]),
        record(1, labels[1], 0, &[41]),
        treatment(labels[2], [labels[1], 10, 0, labels[0]]),
        treatment(labels[3], [0, u64::MAX, labels[1], labels[4]]),
    ];
    input(&schema, &table_of(5, records).words())
}

/// A table of groups, cows and milkings in the old form.
fn old(case: u64) -> Vec<u8> {
    input(&herd_in(OLD), &cases::table(case).words_in(OLD))
}

/// The stored runs.
pub fn runs() -> Vec<(String, Vec<u8>)> {
    let schema = herd();
    let c5 = cases::table(5).words();
    let whole = input(&schema, &c5);
    let mut broken = schema.clone();
    broken[layout::block(1) + FIELD_COUNT] = FIELDS as u64 + 1;
    let mut damaged = c5.clone();
    damaged[1] = 1;
    let mut empty = vec![0; layout::table(0)];
    let _ = start(&mut empty, 1);
    let mut above = vec![0; layout::table(LIST_CAPACITY + 1)];
    let _ = start(&mut above, 1);
    let named = [
        ("c5", whole.clone()),
        ("no-bytes", Vec::new()),
        ("cut-word", whole[..whole.len() - 3].to_vec()),
        ("schema-alone", bytes_of(&schema)),
        ("byte-too-many", [whole.clone(), vec![0]].concat()),
        ("n-201", input(&schema, &above)),
        ("n-201-schema-broken", input(&broken, &above)),
        ("schema-broken", input(&broken, &c5)),
        ("table-damaged", input(&schema, &damaged)),
        ("n-0", input(&schema, &empty)),
        ("n-200", input(&schema, &full().words())),
        ("n-200-longest", longest()),
        ("empty-reference", input(&schema, &cases::table(10).words())),
        ("losers", losers()),
        ("field-12", new_fields()),
        // A table of three old records has the length of a new one of one record.
        ("old-form", old(5)),
        ("old-form-n-3", old(6)),
    ];
    named.into_iter().map(|(name, bytes)| (name.to_string(), bytes)).collect()
}

/// The categories of the random inputs.
pub const CATEGORIES: [&str; 8] =
    ["calls", "direct", "large", "schema", "table", "bytes", "lengths", "noise"];

/// How many inputs a category has.
const EACH: usize = 40;

fn large(random: &mut Random) -> Vec<u8> {
    let schema = random::schema(random);
    let used = random.below(LIST_CAPACITY as u64 + 1) as usize;
    let room = LIST_CAPACITY - used;
    let shape = Shape {
        used,
        capacity: used + random.below(room as u64 + 1) as usize,
        base: random.pick(&[0, 0, LARGEST_COUNTER - 400]),
        spread: 400,
        replicas: random.pick(&[1, 3, 255]),
        incomplete: random.pick(&[0, 20]),
        high_flags: random.pick(&[0, 20]),
    };
    input(&schema, &random::table(random, &random::decoded(&schema), &shape).words())
}

fn small(random: &mut Random, called: bool) -> (Vec<u64>, Vec<u64>) {
    let schema = random::schema(random);
    if called {
        let capacity = random.below(16) as usize;
        let table = called_table(random, &schema, capacity, 2);
        return (schema, table);
    }
    let shape = Shape::small(random);
    let table = random::table(random, &random::decoded(&schema), &shape).words();
    (schema, table)
}

/// One word changed: to a near one, or to one at a limit.
fn damage(random: &mut Random, words: &mut [u64], below: usize) {
    let at = random.below(below.min(words.len()) as u64) as usize;
    let old = words[at];
    words[at] = match random.below(4) {
        0 => old.wrapping_add(1),
        1 => old.wrapping_sub(1),
        2 => old ^ (1 << random.below(64)),
        _ => random.pick(&[0, 1, 256, 257, 65_536, 1 << 40, u64::MAX]),
    };
}

fn resized(random: &mut Random, mut bytes: Vec<u8>) -> Vec<u8> {
    let last = bytes.len();
    let size = match random.below(5) {
        0 => random.below(last as u64) as usize,
        1 => last.saturating_sub(1 + random.below(9) as usize),
        2 => last + 1 + random.below(9) as usize,
        3 => last + WORD * random.below(40) as usize,
        _ => WORD * (layout::SCHEMA + layout::table(LIST_CAPACITY + random.below(3) as usize)),
    };
    bytes.resize(size, 0);
    bytes
}

fn one(random: &mut Random, category: &str) -> Vec<u8> {
    let called = match category {
        "calls" => true,
        "direct" => false,
        _ => random.chance(1, 2),
    };
    let (mut schema, mut table) = small(random, called);
    match category {
        "large" => large(random),
        "schema" => {
            damage(random, &mut schema, layout::block(4));
            input(&schema, &table)
        }
        "table" => {
            damage(random, &mut table, layout::record(2));
            input(&schema, &table)
        }
        "bytes" => {
            let mut bytes = input(&schema, &table);
            for _ in 0..=random.below(3) {
                let at = random.below(bytes.len() as u64) as usize;
                bytes[at] = random.below(256) as u8;
            }
            bytes
        }
        "lengths" => resized(random, input(&schema, &table)),
        "noise" => {
            let [none, one, two] = [0, 1, 2].map(|n| WORD * (layout::SCHEMA + layout::table(n)));
            let size = random.pick(&[WORD * layout::SCHEMA, none, one, two, 500, 50_000]);
            (0..size).map(|_| random.below(256) as u8).collect()
        }
        _ => input(&schema, &table),
    }
}

/// Random and damaged inputs, named by their category and number.
pub fn lists(seed: u64) -> Vec<(String, Vec<u8>)> {
    let mut random = Random::new(seed);
    let mut made = Vec::new();
    for category in CATEGORIES {
        for at in 1..=EACH {
            made.push((format!("{}-{}", category, at), one(&mut random, category)));
        }
    }
    made
}
