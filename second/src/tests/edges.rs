//! The edges.

use super::{delta, made};
use crate::cases::{herd, record, table as case_table};
use crate::label::{label_of, LARGEST_COUNTER};
use crate::layout::{self, CLOCK, FLAG};
use crate::{deletion, insertion, marks, merge, number, start, table_check, update, walk, Step};

#[test]
fn edge_used_and_capacity() {
    let schema = herd();
    let mut words = vec![0; layout::table(2)];
    start(&mut words, 1).unwrap();
    assert_eq!(insertion(&schema, &mut words, &mut delta(), 1, &[1]), Ok(257));
    assert_eq!(insertion(&schema, &mut words, &mut delta(), 1, &[2]), Ok(513));
    let before = words.clone();
    assert_eq!(number(&insertion(&schema, &mut words, &mut delta(), 1, &[3])), 11);
    assert_eq!(words, before);
}

#[test]
fn edge_no_capacity() {
    let mut words = vec![0; layout::table(0)];
    assert_eq!(start(&mut words, 255), Ok(()));
    assert_eq!(table_check(&herd(), &words), Ok(()));
    assert_eq!(marks(&herd(), &words, &mut []), Ok(0));
    assert_eq!(walk(&herd(), &words, &[], &mut 0), Ok(Step::End));
    assert_eq!(number(&insertion(&herd(), &mut words, &mut delta(), 1, &[3])), 11);
}

#[test]
fn edge_clock() {
    let mut words = vec![0; layout::table(2)];
    start(&mut words, 3).unwrap();
    words[CLOCK] = LARGEST_COUNTER - 1;
    let label = label_of(LARGEST_COUNTER, 3);
    assert_eq!(insertion(&herd(), &mut words, &mut delta(), 1, &[1]), Ok(label));
    assert_eq!(table_check(&herd(), &words), Ok(()));
    assert_eq!(number(&insertion(&herd(), &mut words, &mut delta(), 1, &[2])), 12);
    assert_eq!(number(&update(&herd(), &mut words, &mut delta(), 1, 1, 2)), 12);
    assert_eq!(deletion(&herd(), &mut words, &mut delta(), 1), Ok(()));
}

#[test]
fn edge_flag() {
    let mut words = made(&herd(), 1, vec![record(1, 257, 65_534, &[1])]).words();
    assert_eq!(deletion(&herd(), &mut words, &mut delta(), 1), Ok(()));
    assert_eq!(words[layout::record(0) + FLAG], 65_535);
}

#[test]
fn edge_merge_with_itself() {
    let words = case_table(12).words();
    let mut own = words.clone();
    assert_eq!(merge(&herd(), &mut own, &words), Ok(0));
    assert_eq!(own, words);
}

#[test]
fn edge_end_of_walk() {
    let words = case_table(7).words();
    let shown = [1, 0, 1];
    let mut place = 0;
    for (step, after) in
        [(Step::Record(1), 1), (Step::Record(3), 3), (Step::End, 3), (Step::End, 3)]
    {
        assert_eq!(walk(&herd(), &words, &shown, &mut place), Ok(step));
        assert_eq!(place, after);
    }
    let mut place = 2;
    assert_eq!(walk(&herd(), &words, &[2, 255, 1], &mut place), Ok(Step::Record(3)));
}
