//! The herd book.

use super::{delta, made, marks_of, stream};
use crate::book::{
    change, enter, find_milking, schema, strike, CLEANING, COW, GROUP, KINDS, MILKING, ROBOT,
    TREATMENT,
};
use crate::cases::record;
use crate::label::{label_of, LABELS};
use crate::layout::{self, FIELDS, LABEL, RELATION, USED};
use crate::random::{self, Random, Shape};
use crate::schema::{read, Kind};
use crate::vectors::{self, BOOK_CHANGE, BOOK_ENTER, BOOK_FIND, BOOK_STRIKE};
use crate::{deletion, insertion, number, schema_check, start, table_check, update};
use std::collections::BTreeMap;

#[test]
fn schema_is_as_told() {
    assert_eq!(schema_check(&schema()), Ok(()));
    let relations = read(&schema()).unwrap().relations;
    let kinds: Vec<Vec<Kind>> = relations.iter().map(|of| of.kinds.clone()).collect();
    let (group, robot) = (Kind::Abort(GROUP), Kind::Abort(ROBOT));
    let (cow, plain) = (Kind::Propagation(COW), Kind::Plain);
    assert_eq!(kinds[0], [plain]);
    assert_eq!(kinds[1], [plain, plain, group]);
    assert_eq!(kinds[2], [plain]);
    assert_eq!(kinds[3], [cow, robot, plain, plain, plain]);
    assert_eq!(kinds[4], [robot, plain, plain]);
    assert_eq!(kinds[5], [cow, plain, plain]);
    let keys: Vec<Vec<Vec<usize>>> = relations.into_iter().map(|of| of.keys).collect();
    let none: Vec<Vec<usize>> = vec![];
    assert_eq!(keys[..3], [vec![vec![0]], vec![vec![0], vec![1]], vec![vec![0]]]);
    assert_eq!(keys[3..], [none.clone(), none.clone(), none]);
}

/// One of each kind is entered, changed, found and struck off.
#[test]
fn a_day_in_the_barn() {
    let (mut own, mut delta) = (vec![0; layout::table(6)], delta());
    start(&mut own, 1).unwrap();
    let mut entered = |kind: u64, values: &[u64]| enter(&mut own, &mut delta, kind, values);
    let group = entered(GROUP, &[12]).unwrap();
    let cow = entered(COW, &[40, 900, group]).unwrap();
    let robot = entered(ROBOT, &[12]).unwrap();
    let milking = entered(MILKING, &[cow, robot, 9_000, 385, 480]).unwrap();
    assert_eq!(entered(CLEANING, &[robot, 500, 515]), Ok(label_of(5, 1)));
    assert_eq!(entered(TREATMENT, &[cow, 480, 4_800]), Ok(label_of(6, 1)));
    assert_eq!(find_milking(&own, milking), Ok(4));
    assert_eq!(change(&mut own, &mut delta, COW, 2, 3, 0), Ok(()));
    assert_eq!(strike(&mut own, &mut delta, GROUP, 1), Ok(()));
    assert_eq!(number(&strike(&mut own, &mut delta, ROBOT, 3)), 10);
    assert_eq!(number(&strike(&mut own, &mut delta, GROUP, 3)), 6);
    assert_eq!(strike(&mut own, &mut delta, COW, 2), Ok(()));
    assert_eq!(find_milking(&own, milking), Ok(0));
    assert_eq!(number(&strike(&mut own, &mut delta, MILKING, 4)), 6);
}

#[test]
fn order_of_checks() {
    let records = vec![record(GROUP, 257, 0, &[12]), record(ROBOT, 513, 0, &[12])];
    let mut own = made(&schema(), 2, records).words();
    let changed = |own: &mut [u64], kind, index, delta: &mut [u64]| {
        number(&change(own, delta, kind, index, FIELDS as u64 + 1, 0))
    };
    assert_eq!(changed(&mut own, ROBOT, 1, &mut delta()), 6);
    assert_eq!(changed(&mut own, GROUP, 1, &mut delta()), 7);
    assert_eq!(changed(&mut own, ROBOT, 1, &mut [0]), 1);
    assert_eq!(changed(&mut own, ROBOT, 3, &mut delta()), 1);
    own[USED] += 1;
    assert_eq!(changed(&mut own, ROBOT, 1, &mut delta()), 3);
    assert_eq!(changed(&mut own, ROBOT, 1, &mut [0]), 1);
    assert_eq!(number(&find_milking(&own, 257)), 3);
    own.pop();
    assert_eq!(number(&find_milking(&own, 257)), 1);
}

fn some_table(random: &mut Random) -> Vec<u64> {
    let mut shape = Shape::small(random);
    (shape.spread, shape.replicas) = (6, 2);
    random::table(random, &random::decoded(&schema()), &shape).words()
}

/// A search gives what the marks and the words say.
#[test]
fn search_is_that_of_the_marks() {
    let mut random = Random::new(10);
    let mut found = 0;
    for _ in 0..20_000 {
        let words = some_table(&mut random);
        let marks = marks_of(&schema(), &words).1;
        let is = |at: usize, label: u64| {
            let begin = layout::record(at);
            marks[at] == 1 && words[begin + RELATION] == MILKING && words[begin + LABEL] == label
        };
        let some = 1 + random.below(words[USED].max(1)) as usize;
        let told = if words[USED] == 0 { 257 } else { words[layout::record(some - 1) + LABEL] };
        for label in [0, 256, told, told + 1, told + LABELS, u64::MAX] {
            let index = (0..marks.len()).find(|at| is(*at, label)).map_or(0, |at| at as u64 + 1);
            assert_eq!(find_milking(&words, label), Ok(index));
            found += (index != 0) as u64;
        }
    }
    assert!(found > 200, "{}", found);
}

/// Each call is the library's, but for 6 of another kind.
#[test]
fn calls_are_those_of_the_library() {
    let mut random = Random::new(11);
    for _ in 0..4_000 {
        let words = some_table(&mut random);
        let (kind, index) = (random.pick(&KINDS), random.below(words[USED] + 2));
        let (field, value) = (random.below(6), random.pick(&[0, 7, 40, 257, 513]));
        let stored = (1..=words[USED]).contains(&index).then(|| {
            let begin = layout::record(index as usize - 1);
            words[begin + RELATION]
        });
        let run = |edit: &dyn Fn(&mut [u64], &mut [u64]) -> u64| {
            let (mut own, mut delta) = (words.clone(), delta());
            (edit(&mut own, &mut delta), own, delta)
        };
        let told = run(&|own, delta| number(&change(own, delta, kind, index, field, value)));
        let library =
            run(&|own, delta| number(&update(&schema(), own, delta, index, field, value)));
        let other = stored.is_some_and(|stored| stored != kind);
        assert_eq!(told, if other { (6, words.clone(), delta()) } else { library });
        let told = run(&|own, delta| number(&strike(own, delta, kind, index)));
        let library = run(&|own, delta| number(&deletion(&schema(), own, delta, index)));
        assert_eq!(told, if other { (6, words.clone(), delta()) } else { library });
        let values = [7, 257, value, 0, 0];
        let values = &values[..[1, 3, 1, 5, 3, 3][kind as usize - 1]];
        let told = run(&|own, delta| number(&enter(own, delta, kind, values)));
        let library = run(&|own, delta| number(&insertion(&schema(), own, delta, kind, values)));
        assert_eq!(told, library);
    }
}

/// The answers of each call for each kind; there is no 2 and no 5, and 7 is not a wrong count.
fn answers(call: u8, kind: u64) -> &'static [u64] {
    match (call, kind) {
        (BOOK_ENTER, GROUP | ROBOT) => &[0, 1, 3, 9, 11, 12],
        (BOOK_ENTER, COW) => &[0, 1, 3, 7, 8, 9, 11, 12, 13],
        (BOOK_ENTER, MILKING | CLEANING) => &[0, 1, 3, 7, 8, 11, 12, 13],
        (BOOK_ENTER, _) => &[0, 1, 3, 7, 8, 11, 12],
        (BOOK_CHANGE, GROUP | ROBOT) => &[0, 1, 3, 6, 7, 9, 12],
        (BOOK_CHANGE, COW) => &[0, 1, 3, 6, 7, 8, 9, 12, 13],
        (BOOK_CHANGE, MILKING | CLEANING) => &[0, 1, 3, 6, 7, 8, 12, 13],
        (BOOK_CHANGE, _) => &[0, 1, 3, 6, 7, 8, 12],
        (_, GROUP | ROBOT) => &[0, 1, 3, 6, 10],
        (_, COW | MILKING | CLEANING) => &[0, 1, 3, 6, 13],
        _ => &[0, 1, 3, 6],
    }
}

/// Each answer of each call has at least 20 items for each kind, and there are no others.
#[test]
fn each_kind_has_each_answer() {
    let mut counts: BTreeMap<(u8, u64, u64), u64> = BTreeMap::new();
    for (item, told) in vectors::read(stream()).unwrap() {
        if (BOOK_ENTER..BOOK_FIND).contains(&item.call) {
            *counts.entry((item.call, item.words[0], told.answer)).or_insert(0) += 1;
        }
        if item.call == BOOK_ENTER {
            let values = [1, 3, 1, 5, 3, 3][item.words[0] as usize - 1];
            assert_eq!(item.slices[2].len(), values, "{:?}", item);
        }
    }
    let calls = [BOOK_ENTER, BOOK_CHANGE, BOOK_STRIKE];
    let wanted: Vec<(u8, u64, u64)> = calls
        .into_iter()
        .flat_map(|call| KINDS.map(|kind| (call, kind)))
        .flat_map(|(call, kind)| {
            answers(call, kind).iter().map(move |answer| (call, kind, *answer))
        })
        .collect();
    assert_eq!(counts.keys().copied().collect::<Vec<_>>(), wanted);
    assert!(counts.values().all(|count| *count >= 20), "{:?}", counts);
}

/// What the library's call would answer where the record is of another kind.
fn of_the_library(item: &vectors::Item) -> u64 {
    let (mut own, mut delta) = (item.slices[0].clone(), item.slices[1].clone());
    let w = &item.words;
    if item.call == BOOK_CHANGE {
        number(&update(&schema(), &mut own, &mut delta, w[1], w[2], w[3]))
    } else {
        number(&deletion(&schema(), &mut own, &mut delta, w[1]))
    }
}

/// Each kind is asked for with a record of each other kind stored: the library's call would be
/// accepted, or refused before 6, or after it.
#[test]
fn each_other_kind_is_asked_for() {
    let mut counts: BTreeMap<(u8, u64, u64, u64), u64> = BTreeMap::new();
    for (item, told) in vectors::read(stream()).unwrap() {
        let of_table = |table: &Vec<u64>| table_check(&schema(), table).is_ok();
        if ![BOOK_CHANGE, BOOK_STRIKE].contains(&item.call) || !of_table(&item.slices[0]) {
            continue;
        }
        let (kind, index, words) = (item.words[0], item.words[1], &item.slices[0]);
        if !(1..=words[USED]).contains(&index) {
            continue;
        }
        let stored = words[layout::record(index as usize - 1) + RELATION];
        let library = of_the_library(&item);
        let expected = if stored != kind && library != 1 { 6 } else { library };
        assert_eq!(told.answer, expected, "{:?}", item);
        *counts.entry((item.call, kind, stored, library)).or_insert(0) += 1;
    }
    for call in [BOOK_CHANGE, BOOK_STRIKE] {
        for kind in KINDS {
            for stored in KINDS.into_iter().filter(|stored| *stored != kind) {
                assert!(counts[&(call, kind, stored, 0)] >= 3);
                for answer in answers(call, stored).iter().filter(|answer| **answer >= 6) {
                    assert!(counts[&(call, kind, stored, *answer)] >= 1);
                }
            }
        }
    }
}

/// Searches that find and that do not, on both sides of each reason.
#[test]
fn searches_are_enough() {
    let (mut found, mut none, mut no_label) = (0, 0, 0);
    for (item, told) in vectors::read(stream()).unwrap() {
        if item.call == BOOK_FIND {
            found += (told.results[0] != 0) as u64;
            none += (told.answer == 0 && told.results[0] == 0) as u64;
            no_label += (told.answer == 0 && item.words[0] >= LABELS) as u64;
        }
    }
    assert!(found >= 60 && none >= 100 && no_label >= 20, "{} {} {}", found, none, no_label);
}
