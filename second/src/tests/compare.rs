//! Which copy is ahead.

use super::{made, marks_of, random_read, stream};
use crate::cases::{herd, record, table as case_table, COW, GROUP};
use crate::compare::told;
use crate::label::{label_of, Register, LARGEST_COUNTER};
use crate::layout::{self, CAPACITY, CLOCK, HEADER, REPLICA};
use crate::random::{self, Random, Shape};
use crate::table::{Record, Table};
use crate::vectors::{self, COMPARE};
use crate::{compare, merge, number, Verdict};
use std::collections::BTreeMap;
use Verdict::{Alike, FirstBehind, Neither, SecondBehind};

fn mirrored(verdict: Verdict) -> Verdict {
    match verdict {
        FirstBehind => SecondBehind,
        SecondBehind => FirstBehind,
        same => same,
    }
}

/// Both directions of a comparison under the schema of groups, cows and milkings.
fn check(first: &Table, second: &Table, verdict: Verdict) {
    let (first, second) = (first.words(), second.words());
    assert_eq!(compare(&herd(), &first, &second), Ok(verdict));
    assert_eq!(compare(&herd(), &second, &first), Ok(mirrored(verdict)));
}

fn group(counter: u64, name: u64) -> Record {
    record(GROUP, label_of(counter, 1), 0, &[name])
}

/// A table of clock 9 with exactly these records.
fn table(records: Vec<Record>) -> Table {
    Table { clock: 9, ..made(&herd(), records.len(), records) }
}

#[test]
fn copies_elsewhere_are_alike() {
    for case in 5..=12 {
        let first = case_table(case);
        check(&first, &first, Alike);
        let mut second = first.clone();
        second.records.reverse();
        (second.replica, second.capacity) = (200, first.capacity + 7);
        check(&first, &second, Alike);
    }
    let (none, other) = (table(vec![]), Table { replica: 9, capacity: 3, ..table(vec![]) });
    check(&none, &other, Alike);
}

#[test]
fn lower_clock_is_behind() {
    let first = case_table(12);
    for clock in [3, 4, LARGEST_COUNTER] {
        check(&first, &Table { clock, ..first.clone() }, FirstBehind);
    }
}

#[test]
fn record_against_clock_is_neither() {
    let first = Table { clock: 10, ..table(vec![group(1, 12)]) };
    let second = table(vec![group(1, 12), group(2, 13)]);
    check(&first, &second, Neither);
    check(&Table { clock: 9, ..first }, &second, FirstBehind);
}

#[test]
fn record_of_each_is_neither() {
    let (first, second) = (table(vec![group(1, 12)]), table(vec![group(2, 12)]));
    check(&first, &second, Neither);
    let cow = record(COW, label_of(1, 1), 0, &[12, 0]);
    check(&first, &table(vec![cow]), Neither);
}

#[test]
fn registers_and_flags_are_compared() {
    let older = record(COW, label_of(2, 1), 0, &[40, label_of(1, 1)]);
    let with = |change: &dyn Fn(&mut Record)| {
        let mut record = older.clone();
        change(&mut record);
        table(vec![record])
    };
    let first = table(vec![older.clone()]);
    check(&first, &with(&|record| record.flag = 1), FirstBehind);
    check(&first, &with(&|record| record.registers[1].stamp += 256), FirstBehind);
    let newer = Register { value: 0, stamp: label_of(2, 2) };
    check(&first, &with(&|record| record.registers[0] = newer), FirstBehind);
    let deleted = with(&|record| record.flag = 2);
    check(&deleted, &with(&|record| record.registers[0] = newer), Neither);
    let second = with(&|record| record.registers[1] = newer);
    check(&second, &with(&|record| record.registers[0] = newer), Neither);
}

#[test]
fn smaller_value_under_one_stamp_is_behind() {
    for (small, large) in [(0, 1), (12, 13), (5, 5 + (1 << 32)), (0, u64::MAX)] {
        check(&table(vec![group(1, small)]), &table(vec![group(1, large)]), FirstBehind);
    }
}

#[test]
fn incomplete_and_hidden_records_count() {
    let mut incomplete = record(COW, label_of(2, 1), 0, &[40, 0]);
    incomplete.registers[1] = Register::default();
    let lost = record(COW, label_of(3, 1), 0, &[41, label_of(9, 9)]);
    let struck = record(GROUP, label_of(4, 1), 1, &[13]);
    let loser = record(GROUP, label_of(5, 1), 0, &[12]);
    for hidden in [incomplete, lost, struck, loser] {
        let first = table(vec![group(1, 12)]);
        let second = table(vec![group(1, 12), hidden.clone()]);
        assert_eq!(marks_of(&herd(), &second.words()).1, [1, 0]);
        check(&first, &second, FirstBehind);
        let newer = Record { flag: hidden.flag + 2, ..hidden };
        check(&second, &table(vec![group(1, 12), newer]), FirstBehind);
    }
}

#[test]
fn bare_record_counts() {
    let registers = vec![Register::default()];
    let bare = Record { relation: GROUP, label: label_of(1, 1), flag: 0, registers };
    check(&table(vec![]), &table(vec![bare.clone()]), FirstBehind);
    check(&table(vec![bare]), &table(vec![group(1, 0)]), FirstBehind);
}

#[test]
fn full_tables_compare() {
    let (first, second) = (table(vec![group(1, 12)]), table(vec![group(2, 12)]));
    assert_eq!(number(&merge(&herd(), &mut first.words(), &second.words())), 11);
    check(&first, &second, Neither);
    check(&first, &table(vec![group(2, 12), group(1, 12)]), FirstBehind);
    let of = |from: u64| (from..from + CAPACITY as u64).map(|at| group(at, at)).collect();
    let [first, second] = [1, 2].map(|from| made(&herd(), CAPACITY, of(from)));
    check(&first, &second, Neither);
    check(&first, &Table { clock: second.clock, ..first.clone() }, FirstBehind);
}

#[test]
fn order_of_checks() {
    let (good, broken) = (herd(), vec![0; layout::SCHEMA]);
    let (damaged, table) = (vec![0; layout::table(1)], case_table(12).words());
    let answer = |schema: &[u64], first: &[u64], second: &[u64]| {
        let answer = compare(schema, first, second);
        assert_eq!(told(&answer) == 0, answer.is_err());
        number(&answer)
    };
    assert_eq!(answer(&good, &table, &table), 0);
    assert_eq!(answer(&good, &damaged, &table), 3);
    assert_eq!(answer(&good, &table, &damaged), 4);
    assert_eq!(answer(&good, &damaged, &damaged), 3);
    for (first, second) in [(&damaged, &table), (&table, &damaged), (&damaged, &damaged)] {
        assert_eq!(answer(&broken, first, second), 2);
        assert_eq!(answer(&good, &first[1..], second), 1);
        assert_eq!(answer(&good, first, &second[1..]), 1);
        assert_eq!(answer(&broken, first, &second[..HEADER - 1]), 1);
        assert_eq!(answer(&broken[1..], first, second), 1);
    }
}

/// The contents of one are at most those of the other, told without a merge.
fn at_most(a: &Table, b: &Table) -> bool {
    let positions = b.positions();
    let within = |ours: &Record| {
        positions.get(&ours.name()).is_some_and(|at| {
            let theirs = &b.records[*at];
            let mut registers = ours.registers.iter().zip(&theirs.registers);
            ours.flag <= theirs.flag
                && registers.all(|(a, b)| (a.stamp, a.value) <= (b.stamp, b.value))
        })
    };
    a.clock <= b.clock && a.records.iter().all(within)
}

/// Few labels, so that tables share them. Some have the contents of another, older or newer.
fn some_tables<const N: usize>(random: &mut Random, schema: &[u64]) -> [Vec<u64>; N] {
    let mut made: Vec<Vec<u64>> = Vec::new();
    for _ in 0..N {
        let mut shape = Shape::small(random);
        (shape.base, shape.spread, shape.replicas, shape.capacity) = (0, 3, 1, 24);
        let mut words = random::table(random, &random::decoded(schema), &shape).words();
        for before in &made {
            if random.chance(1, 3) {
                merge(schema, &mut words, before).unwrap();
            }
            if random.chance(1, 4) {
                words = before.clone();
            }
        }
        if random.chance(1, 3) {
            words[CLOCK] += random.below(3);
        }
        words[REPLICA] = 1 + random.below(255);
        made.push(words);
    }
    std::array::from_fn(|at| made[at].clone())
}

#[test]
fn verdict_is_that_of_the_contents() {
    let mut random = Random::new(12);
    let mut verdicts = BTreeMap::new();
    for _ in 0..20_000 {
        let schema = random::schema(&mut random);
        let [first, second] = some_tables(&mut random, &schema);
        let (a, b) = (random_read(&schema, &first), random_read(&schema, &second));
        let expected = match (at_most(&a, &b), at_most(&b, &a)) {
            (true, true) => Alike,
            (true, false) => FirstBehind,
            (false, true) => SecondBehind,
            (false, false) => Neither,
        };
        assert_eq!(compare(&schema, &first, &second), Ok(expected));
        *verdicts.entry(expected).or_insert(0) += 1;
    }
    assert!(verdicts.len() == 4 && verdicts.values().all(|count| *count > 1_000), "{verdicts:?}");
}

/// Behind or alike is a partial order, and the merge is the least above both.
#[test]
fn order_with_the_merge_as_the_least_above() {
    let mut random = Random::new(13);
    let (mut chains, mut above) = (0, 0);
    for _ in 0..20_000 {
        let schema = random::schema(&mut random);
        let [a, b, c] = some_tables(&mut random, &schema);
        let le = |first: &[u64], second: &[u64]| {
            matches!(compare(&schema, first, second), Ok(Alike | FirstBehind))
        };
        assert!(le(&a, &a));
        if le(&a, &b) && le(&b, &c) {
            assert!(le(&a, &c));
            chains += 1;
        }
        let mut merged = a.clone();
        merge(&schema, &mut merged, &b).unwrap();
        assert!(le(&a, &merged) && le(&b, &merged));
        if le(&a, &c) && le(&b, &c) {
            assert!(le(&merged, &c));
            above += 1;
        }
    }
    assert!(chains > 1_000 && above > 1_000, "{} {}", chains, above);
}

/// In the vectors each verdict has many items, and tables in the other order the mirrored verdict.
#[test]
fn vectors_tell_each_verdict() {
    let mut counts = BTreeMap::new();
    for (item, back) in vectors::read(stream()).unwrap() {
        if item.call != COMPARE {
            continue;
        }
        let [schema, first, second] = &item.slices[..] else { panic!("{:?}", item) };
        let answer = compare(schema, first, second);
        assert_eq!((number(&answer), told(&answer)), (back.answer, back.results[0]));
        if let Ok(verdict) = answer {
            assert_eq!(compare(schema, second, first), Ok(mirrored(verdict)));
        }
        *counts.entry((back.answer, back.results[0])).or_insert(0) += 1;
    }
    for told in [(0, 1), (0, 2), (0, 3), (0, 4), (1, 0), (2, 0), (3, 0), (4, 0)] {
        assert!(counts[&told] >= 20, "{:?}", counts);
    }
    assert_eq!(counts.len(), 8);
}
