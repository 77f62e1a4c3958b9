//! A loser blocks nobody.

use super::{delta, made, marks_of, random_read, stream};
use crate::book::{self, enter, find_milking, COW, MILKING};
use crate::cases::{record, schema_words};
use crate::label::{label_of, Register};
use crate::layout::{self, PLAIN};
use crate::random::{self, Random, Shape};
use crate::schema::Schema;
use crate::shown::{key_values, steps, values_of, Steps};
use crate::table::{Record, Table};
use crate::vectors::{self, MARKS};
use crate::{deletion, insertion, merge, number, start, update};
use std::collections::BTreeMap;

/// Cows with ear tag and transponder, each a key, in this order or in the other.
fn cows(exchanged: bool) -> Vec<u64> {
    let masks = if exchanged { (2, 1) } else { (1, 2) };
    schema_words(&[(&[PLAIN], 1, 0), (&[PLAIN, PLAIN], masks.0, masks.1)])
}

fn cow(counter: u64, replica: u64, tag: u64, transponder: u64) -> Record {
    record(2, label_of(counter, replica), 0, &[tag, transponder])
}

/// The cows of the request: 2.1, 2.2 and 2.3.
fn three() -> Vec<Record> {
    vec![cow(2, 1, 40, 7), cow(2, 2, 40, 8), cow(2, 3, 41, 8)]
}

/// The marks of these cows, under both orders of the keys and with exchanged columns.
fn check(records: &[Record], expected: &[u8]) {
    for (exchanged, swapped) in [(false, false), (true, false), (false, true), (true, true)] {
        let mut records = records.to_vec();
        if swapped {
            records.iter_mut().for_each(|record| record.registers.swap(0, 1));
        }
        let words = made(&cows(exchanged), records.len(), records).words();
        assert_eq!(marks_of(&cows(exchanged), &words).1, expected);
    }
}

#[test]
fn cows_of_the_request() {
    check(&three(), &[1, 0, 1]);
    let mut reversed = three();
    reversed.reverse();
    check(&reversed, &[1, 0, 1]);
}

#[test]
fn kept_cow_blocks() {
    let mut four = three();
    four.push(cow(3, 1, 41, 9));
    check(&four, &[1, 0, 1, 0]);
    four.push(cow(3, 2, 42, 9));
    check(&four, &[1, 0, 1, 0, 1]);
}

#[test]
fn loser_is_shown_without_its_winner() {
    let mut records = three();
    records[0].flag = 1;
    check(&records, &[0, 1, 0]);
    records[1].flag = 1;
    check(&records, &[0, 0, 1]);
}

/// The order is that of the labels: the counter comes first, and positions are no part of it.
#[test]
fn labels_rise() {
    let ends = [cow(2, 1, 40, 7), cow(2, 3, 41, 8)];
    let younger = cow(3, 1, 40, 8);
    check(&[younger.clone(), ends[0].clone(), ends[1].clone()], &[0, 1, 1]);
    let older = cow(1, 9, 40, 8);
    check(&[ends[0].clone(), ends[1].clone(), older], &[0, 0, 1]);
}

/// A kept record that step 4 loses still blocks, and a record that was dropped for it stays out.
#[test]
fn kept_and_lost_in_step_four() {
    let schema = book::schema();
    let unknown = label_of(9, 9);
    let records = vec![
        record(COW, label_of(2, 1), 0, &[40, 7, 0]),
        record(COW, label_of(2, 2), 0, &[40, 8, 0]),
        record(COW, label_of(2, 3), 0, &[41, 8, unknown]),
        record(COW, label_of(3, 1), 0, &[41, 9, 0]),
        record(COW, label_of(3, 2), 0, &[42, 9, 0]),
    ];
    let words = made(&schema, 5, records).words();
    assert_eq!(marks_of(&schema, &words).1, [1, 0, 0, 0, 1]);
}

/// The milking of a dropped cow is hidden, and that of a kept one is found.
#[test]
fn milkings_follow() {
    let mut records = Vec::new();
    for (replica, mut cow) in (1..).zip(three()) {
        cow.registers.push(Register { value: 0, stamp: cow.label });
        records.push(record(MILKING, label_of(3, replica), 0, &[cow.label, 0, 9_000, 385, 480]));
        records.push(cow);
    }
    let words = made(&book::schema(), 6, records).words();
    let found = [1, 2, 3].map(|replica| find_milking(&words, label_of(3, replica)));
    assert_eq!(found, [Ok(1), Ok(0), Ok(5)]);
}

/// Answer 9 looks at all standing records: at the dropped ones too.
#[test]
fn loser_still_conflicts() {
    let schema = cows(false);
    let mut two = made(&schema, 4, three()[..2].to_vec()).words();
    for (values, answer) in [([41, 8], 9), ([40, 9], 9), ([41, 7], 9), ([41, 9], 0)] {
        assert_eq!(number(&insertion(&schema, &mut two, &mut delta(), 2, &values)), answer);
    }
    let words = made(&schema, 4, three()).words();
    let updated = |index: u64, field: u64, value: u64| {
        number(&update(&schema, &mut words.clone(), &mut delta(), index, field, value))
    };
    assert_eq!(updated(1, 1, 40), 9);
    assert_eq!(updated(1, 2, 7), 0);
    assert_eq!(updated(1, 2, 8), 9);
    assert_eq!(updated(2, 1, 42), 6);
    assert_eq!(updated(3, 2, 8), 9);
    assert_eq!(updated(3, 2, 9), 0);
    assert_eq!(updated(3, 1, 41), 0);
    assert_eq!(updated(3, 1, 40), 9);
    let deleted = |index: u64| number(&deletion(&schema, &mut words.clone(), &mut delta(), index));
    assert_eq!([1, 2, 3].map(deleted), [0, 6, 0]);
}

/// Answer 10 looks at all standing records: a dropped cow guards her group.
#[test]
fn loser_still_guards() {
    let group = label_of(1, 1);
    let mut records = vec![record(1, group, 0, &[12])];
    for (at, cow) in three().into_iter().enumerate() {
        let values = [cow.registers[0].value, cow.registers[1].value, (at == 1) as u64 * group];
        records.push(record(COW, cow.label, 0, &values));
    }
    let mut words = made(&book::schema(), 4, records).words();
    assert_eq!(marks_of(&book::schema(), &words).1, [1, 1, 0, 1]);
    assert_eq!(number(&deletion(&book::schema(), &mut words, &mut delta(), 1)), 10);
}

/// Three robots enter the cows of the request, and each takes in the others.
#[test]
fn merged_copies_list_alike() {
    let schema = book::schema();
    let robots: Vec<Vec<u64>> = (1..=3)
        .map(|replica| {
            let mut own = vec![0; layout::table(4)];
            start(&mut own, replica).unwrap();
            enter(&mut own, &mut delta(), 1, &[replica]).unwrap();
            let values = [[40, 7, 0], [40, 8, 0], [41, 8, 0]][replica as usize - 1];
            assert_eq!(enter(&mut own, &mut delta(), COW, &values), Ok(label_of(2, replica)));
            own.resize(layout::table(6), 0);
            own
        })
        .collect();
    for order in [[0, 1, 2], [0, 2, 1], [1, 0, 2], [1, 2, 0], [2, 0, 1], [2, 1, 0]] {
        let mut own = robots[order[0]].clone();
        merge(&schema, &mut own, &robots[order[1]]).unwrap();
        merge(&schema, &mut own, &robots[order[2]]).unwrap();
        let marks = marks_of(&schema, &own).1;
        let table = random_read(&schema, &own);
        let listed = table.records.iter().zip(marks).filter(|(_, mark)| *mark == 1);
        let mut cows: Vec<u64> =
            listed.filter(|(of, _)| of.relation == COW).map(|(of, _)| of.label).collect();
        cows.sort();
        assert_eq!(cows, [label_of(2, 1), label_of(2, 3)]);
    }
}

/// Whether two records of one relation conflict on a key.
fn conflict(schema: &Schema, a: &Record, b: &Record) -> bool {
    let under = |record: &Record, key: &[usize]| {
        key_values(schema, record.relation, key, &values_of(record))
    };
    let keys = schema.relation(a.relation).map_or(&[][..], |of| &of.keys);
    a.relation == b.relation
        && keys.iter().any(|key| under(a, key).is_some() && under(a, key) == under(b, key))
}

/// Whether step 3 keeps a record that conflicts with an older one that it drops.
fn is_freed(schema: &Schema, table: &Table, steps: &Steps, at: usize) -> bool {
    let record = &table.records[at];
    let mut others = table.records.iter().zip(&steps.standing);
    let blocks = |other: &Record| other.label < record.label && conflict(schema, other, record);
    steps.kept[at] && others.any(|(other, stands)| *stands && blocks(other))
}

/// The subsets of the standing records in which each standing record is exactly if no older member
/// conflicts with it.
fn subsets(schema: &Schema, table: &Table, standing: &[bool]) -> Vec<Vec<bool>> {
    let stands: Vec<usize> = (0..standing.len()).filter(|at| standing[*at]).collect();
    let records = &table.records;
    let blocks = |b: usize, a: usize| {
        records[b].label < records[a].label && conflict(schema, &records[a], &records[b])
    };
    let mut found = Vec::new();
    for subset in 0..1u32 << stands.len() {
        let mut members = vec![false; standing.len()];
        for (bit, at) in stands.iter().enumerate() {
            members[*at] = subset >> bit & 1 == 1;
        }
        let blocked = |a: usize| stands.iter().any(|b| members[*b] && blocks(*b, a));
        if stands.iter().all(|at| members[*at] != blocked(*at)) {
            found.push(members);
        }
    }
    found
}

/// Up to nine cows with few tags and transponders, of any labels, and some deleted.
fn some_cows(random: &mut Random) -> Vec<Record> {
    let mut cows: Vec<Record> = Vec::new();
    for _ in 0..random.below(10) {
        let (counter, replica) = (1 + random.below(4), 1 + random.below(4));
        let values = 2 + random.below(4);
        let mut cow = cow(counter, replica, random.below(values), random.below(values));
        cow.flag = random.pick(&[0, 0, 0, 0, 2, 1]);
        if cows.iter().all(|other| other.label != cow.label) {
            cows.push(cow);
        }
    }
    cows
}

/// Step 3 leaves the only such subset.
#[test]
fn kept_is_the_only_subset() {
    let mut random = Random::new(14);
    let (mut dropped, mut freed) = (0, 0);
    for round in 0..8_000 {
        let (schema, table) = if round % 2 == 0 {
            let schema = cows(random.chance(1, 2));
            let table = made(&schema, 9, some_cows(&mut random));
            (random::decoded(&schema), table)
        } else {
            let schema = random::decoded(&random::schema(&mut random));
            let mut shape = Shape::small(&mut random);
            (shape.base, shape.spread) = (0, 4);
            let table = random::table(&mut random, &schema, &shape);
            (schema, table)
        };
        let steps = steps(&schema, &table);
        let subsets = subsets(&schema, &table, &steps.standing);
        assert_eq!((subsets.len(), &subsets[0]), (1, &steps.kept));
        let all = 0..table.records.len();
        dropped += all.clone().filter(|at| steps.standing[*at] && !steps.kept[*at]).count();
        freed += all.filter(|at| is_freed(&schema, &table, &steps, *at)).count();
    }
    assert!(dropped > 4_000 && freed > 400, "{} {}", dropped, freed);
}

/// The marks of the vectors have tables in which a dropped record does not block another.
#[test]
fn vectors_have_losers_that_block_nobody() {
    let mut counts = BTreeMap::new();
    for (item, told) in vectors::read(stream()).unwrap() {
        if item.call == MARKS && told.answer == 0 {
            let schema = random::decoded(&item.slices[0]);
            let table = random_read(&item.slices[0], &item.slices[1]);
            let steps = steps(&schema, &table);
            let freed = (0..table.records.len()).any(|at| is_freed(&schema, &table, &steps, at));
            *counts.entry(item.category).or_insert(0) += freed as u64;
        }
    }
    for (category, least) in [(75, 12), (76, 60), (77, 20), (78, 20), (79, 40), (80, 20)] {
        assert!(counts[&category] >= least, "{:?}", counts);
    }
}
