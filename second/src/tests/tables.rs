//! Merge and table check on random words.

use super::{marks_of, random_read};
use crate::cases::{bytes_of, herd};
use crate::label::Register;
use crate::layout::{self, CAPACITY, HEADER, OLD, RECORD};
use crate::list::list;
use crate::random::{self, Random, Shape};
use crate::table::{Record, Table};
use crate::{
    compare, deletion, insertion, lookup, marks, merge, narrow, number, schema_check, start,
    table_check, update, values, walk, widen,
};
use std::collections::BTreeMap;

type Content = BTreeMap<(u64, u64), (u64, Vec<Register>)>;

fn content(table: &Table) -> Content {
    let entry = |record: &Record| (record.name(), (record.flag, record.registers.clone()));
    table.records.iter().map(entry).collect()
}

fn contents(schema: &[u64], words: &[u64]) -> (u64, Content) {
    let table = random_read(schema, words);
    (table.clock, content(&table))
}

/// Three tables of one capacity that share labels.
fn three(random: &mut Random, schema: &[u64]) -> [Vec<u64>; 3] {
    let capacity = 4 + random.below(12) as usize;
    let decoded = random::decoded(schema);
    [(); 3].map(|_| {
        let mut shape = Shape::small(random);
        shape.base = 0;
        shape.used = shape.used.min(capacity);
        shape.capacity = capacity;
        random::table(random, &decoded, &shape).words()
    })
}

#[test]
fn merge_is_commutative_associative_idempotent() {
    let mut random = Random::new(1);
    let mut answers = BTreeMap::new();
    for _ in 0..20_000 {
        let schema = random::schema(&mut random);
        let [a, b, c] = three(&mut random, &schema);
        let (mut left, mut right) = (a.clone(), b.clone());
        let first = number(&merge(&schema, &mut left, &b));
        let second = number(&merge(&schema, &mut right, &a));
        assert_eq!(first, second);
        assert!(first == 0 || first == 11);
        *answers.entry(first).or_insert(0) += 1;
        if first == 0 {
            assert_eq!(contents(&schema, &left), contents(&schema, &right));
        }

        let third = number(&merge(&schema, &mut left, &c));
        let mut inner = b.clone();
        let fourth = number(&merge(&schema, &mut inner, &c));
        let mut outer = a.clone();
        let fifth = number(&merge(&schema, &mut outer, &inner));
        if [first, third, fourth, fifth] == [0; 4] {
            assert_eq!(contents(&schema, &left), contents(&schema, &outer));
        } else {
            assert!((first == 11 || third == 11) && (fourth == 11 || fifth == 11));
        }

        let mut own = a.clone();
        assert_eq!(merge(&schema, &mut own, &a), Ok(0));
        assert_eq!(own, a);
    }
    assert!(answers[&0] > 1000 && answers[&11] > 1000);
}

#[test]
fn accepted_words_are_those_of_their_table() {
    let mut random = Random::new(7);
    for _ in 0..20_000 {
        let schema = random::decoded(&random::schema(&mut random));
        let shape = Shape::small(&mut random);
        let mut words = random::table(&mut random, &schema, &shape).words();
        assert!(crate::table::read(&schema, &words).is_some());
        for _ in 0..random.below(3) {
            let (at, from) = (random.below(words.len() as u64), random.below(words.len() as u64));
            words[at as usize] = random.pick(&[0, 1, words[from as usize]]);
        }
        if let Some(table) = crate::table::read(&schema, &words) {
            assert_eq!(table.words(), words);
        }
    }
}

#[test]
fn large_tables_are_quick() {
    let mut random = Random::new(4);
    let schema = random::nodes();
    let shape = Shape {
        used: CAPACITY,
        capacity: CAPACITY,
        base: 0,
        spread: CAPACITY as u64,
        replicas: 2,
        incomplete: 50,
        high_flags: 0,
    };
    let words = random::table(&mut random, &random::decoded(&schema), &shape).words();
    let began = std::time::Instant::now();
    assert_eq!(table_check(&schema, &words), Ok(()));
    marks_of(&schema, &words);
    let mut own = words.clone();
    assert_eq!(merge(&schema, &mut own, &words), Ok(0));
    assert!(began.elapsed().as_secs() < 3);
}

#[test]
fn no_words_panic() {
    let mut random = Random::new(5);
    let lengths = [
        0,
        1,
        HEADER - 1,
        HEADER,
        HEADER + 1,
        layout::table(1),
        layout::table(2),
        layout::SCHEMA,
        layout::DELTA,
        OLD.schema(),
        OLD.table(1),
        OLD.table(2),
    ];
    for _ in 0..50_000 {
        let words = |random: &mut Random| -> Vec<u64> {
            let length = random.pick(&lengths);
            let word = |_| match random.below(4) {
                0 => random.below(4),
                1 => random.next(),
                2 => u64::MAX - random.below(3),
                _ => 0,
            };
            (0..length).map(word).collect()
        };
        let schema = if random.chance(2, 3) { herd() } else { words(&mut random) };
        let mut own = words(&mut random);
        let (other, mut written) = (words(&mut random), words(&mut random));
        let (a, b, c) = (random.below(4), random.below(4), random.next());
        let _ = schema_check(&schema);
        let _ = table_check(&schema, &own);
        let _ = values(&own, a);
        let _ = compare(&schema, &own, &other);
        let _ = lookup(&schema, &own, a, c);
        let mut to_schema = words(&mut random);
        let _ = widen(&other, &own, &mut to_schema, &mut written);
        let _ = narrow(&schema, &own, &mut to_schema, &mut written);
        let _ = merge(&schema, &mut own, &other);
        let _ = insertion(&schema, &mut own, &mut written, a, &[b, c]);
        let _ = update(&schema, &mut own, &mut written, a, b, c);
        let _ = deletion(&schema, &mut own, &mut written, c);
        let mut found = vec![0; own.len() / RECORD];
        let _ = marks(&schema, &own, &mut found);
        let mut place = a;
        let _ = walk(&schema, &own, &found, &mut place);
        let _ = list(&bytes_of(&own));
        let _ = start(&mut own, a);
    }
}
