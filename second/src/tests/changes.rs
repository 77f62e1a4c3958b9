//! How much a join and a merge changed.

use super::{made, random_read, stream};
use crate::cases::{herd, record, table as case_table, COW, GROUP};
use crate::label::{join_flags, join_registers, label_of, Register, LARGEST_FLAG};
use crate::layout::{self, CLOCK, FLAG, RECORD, USED};
use crate::merge;
use crate::random::{self, Random, Shape};
use crate::table::Record;
use crate::vectors::{self, Fleet, FLEET_MERGE, MERGE, SLOTS};
use std::collections::BTreeMap;

#[test]
fn joins_say_what_changed() {
    let mut random = Random::new(8);
    for _ in 0..20_000 {
        let mut register = || Register { value: random.below(3), stamp: 257 + random.below(3) };
        let (a, b) = (register(), register());
        let (joined, changed) = join_registers(a, b);
        assert_eq!(changed, joined != a);
        assert_eq!(changed, (b.stamp, b.value) > (a.stamp, a.value));
        assert_eq!(join_registers(joined, b), (joined, false));
        let (a, b) = (random.below(LARGEST_FLAG + 1), random.below(LARGEST_FLAG + 1));
        assert_eq!(join_flags(a, b), (a.max(b), b > a));
        assert_eq!(join_flags(a, a), (a, false));
    }
}

/// The figure of words before and after: the records whose words differ but for the next index.
fn counted(before: &[u64], after: &[u64]) -> usize {
    let records = |words: &[u64]| -> Vec<Vec<u64>> {
        let used = layout::record(words[USED] as usize);
        words[layout::record(0)..used].chunks(RECORD).map(|record| record[1..].to_vec()).collect()
    };
    let (before, after) = (records(before), records(after));
    (0..after.len()).filter(|at| before.get(*at) != Some(&after[*at])).count()
}

#[test]
fn figure_is_that_of_the_words() {
    let mut random = Random::new(9);
    let mut figures = BTreeMap::new();
    for _ in 0..20_000 {
        let schema = random::schema(&mut random);
        let [own, other] = [(); 2].map(|_| {
            let mut shape = Shape::small(&mut random);
            shape.base = 0;
            shape.spread = 4;
            shape.capacity = 12;
            random::table(&mut random, &random::decoded(&schema), &shape).words()
        });
        let mut merged = own.clone();
        match merge(&schema, &mut merged, &other) {
            Ok(changed) => {
                assert_eq!(changed, counted(&own, &merged));
                let mut same = own.clone();
                same[CLOCK] = merged[CLOCK];
                assert_eq!(changed == 0, merged == same);
                *figures.entry(changed).or_insert(0) += 1;
                assert_eq!(merge(&schema, &mut merged, &other), Ok(0));
                assert_eq!(merge(&schema, &mut merged, &own), Ok(0));
            }
            Err(_) => assert_eq!(merged, own),
        }
    }
    assert!((0..=8).all(|figure| figures[&figure] > 100), "{:?}", figures);
}

/// The figure of a merge of tables with at most one record each.
fn figure(own: Option<&Record>, other: &Record) -> usize {
    let mut words = made(&herd(), 1, own.cloned().into_iter().collect()).words();
    let other = made(&herd(), 1, vec![other.clone()]).words();
    merge(&herd(), &mut words, &other).unwrap()
}

#[test]
fn clock_alone_is_no_change() {
    let words = case_table(12).words();
    let (mut own, mut other) = (words.clone(), words.clone());
    other[CLOCK] += 1;
    assert_eq!(merge(&herd(), &mut own, &other), Ok(0));
    assert_eq!(own, other);
}

#[test]
fn record_counts_once() {
    let old = record(COW, label_of(2, 1), 0, &[40, label_of(1, 1)]);
    let new = |flag, stamps: [u64; 2]| {
        let mut new = old.clone();
        new.flag = flag;
        new.registers.iter_mut().zip(stamps).for_each(|(register, by)| register.stamp += by << 8);
        new
    };
    for (flag, stamps) in [(0, [0, 1]), (0, [1, 0]), (0, [1, 1]), (1, [0, 0]), (1, [1, 1])] {
        assert_eq!(figure(Some(&old), &new(flag, stamps)), 1);
        assert_eq!(figure(Some(&new(flag, stamps)), &old), 0);
    }
    assert_eq!(figure(Some(&old), &old), 0);
    assert_eq!(figure(None, &old), 1);
}

#[test]
fn bare_record_counts_when_added() {
    let registers = vec![Register::default()];
    let bare = Record { relation: GROUP, label: label_of(1, 1), flag: 0, registers };
    assert_eq!(figure(None, &bare), 1);
    assert_eq!(figure(Some(&bare), &bare), 0);
    let deleted = Record { flag: 1, ..bare.clone() };
    assert_eq!(figure(Some(&bare), &deleted), 1);
}

#[test]
fn directions_differ() {
    let schema = herd();
    let words = case_table(12).words();
    let mut newer = words.clone();
    newer[layout::record(0) + FLAG] += 1;
    let mut own = words.clone();
    assert_eq!(merge(&schema, &mut own, &newer), Ok(1));
    assert_eq!(merge(&schema, &mut newer, &words), Ok(0));
    assert_eq!(random_read(&schema, &own), random_read(&schema, &newer));
}

/// In every merge of the vectors the number is that of the words before and after. Those of both
/// calls have small and large ones.
#[test]
fn vectors_tell_the_figure() {
    let mut fleet = Fleet::default();
    let mut counts = BTreeMap::new();
    for (item, told) in vectors::read(stream()).unwrap() {
        let slot = item.words.first().map_or(0, |word| *word as usize % SLOTS);
        let in_fleet = fleet.slots[slot].clone();
        vectors::run(&mut fleet, &item);
        let (before, after) = match item.call {
            MERGE => (&item.slices[1], &told.exits[0]),
            FLEET_MERGE => (&in_fleet, &fleet.slots[slot]),
            _ => continue,
        };
        if told.answer != 0 {
            assert_eq!((told.results[0], after), (0, before));
        } else {
            assert_eq!(told.results[0], counted(before, after) as u64);
            *counts.entry((item.call, told.results[0].min(3))).or_insert(0) += 1;
        }
    }
    for call in [MERGE, FLEET_MERGE] {
        assert!((0..=3).all(|figure| counts[&(call, figure)] >= 20), "{:?}", counts);
    }
}
