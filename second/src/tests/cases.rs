//! The cases C1 to C12, labels and flags.

use super::marks_of;
use crate::cases::{herd, table as case_table, DELETED};
use crate::label::{
    delete, is_label, join_flags, join_registers, label_of, redo, Register, LARGEST_COUNTER,
};
use crate::layout::{self, FLAG, HEADER, RECORD};
use crate::{deletion, table_check};

fn shown_case(case: u64, expected: &[u8]) {
    let words = case_table(case).words();
    assert_eq!(table_check(&herd(), &words), Ok(()));
    let count = expected.iter().filter(|mark| **mark == 1).count() as u64;
    assert_eq!(marks_of(&herd(), &words), (count, expected.to_vec()));
}

fn reg(value: u64, stamp: u64) -> Register {
    Register { value, stamp }
}

#[test]
fn c1() {
    assert_eq!(join_registers(reg(5, 257), reg(7, 514)), (reg(7, 514), true));
}

#[test]
fn c2() {
    assert_eq!(join_registers(reg(5, 257), reg(7, 257)), (reg(7, 257), true));
    assert_eq!(join_registers(reg(7, 257), reg(5, 257)), (reg(7, 257), false));
}

#[test]
fn c3() {
    assert_eq!(join_registers(reg(0, 0), reg(5, 257)), (reg(5, 257), true));
}

#[test]
fn c4() {
    assert_eq!(join_flags(1, 2), (2, true));
}

#[test]
fn c5() {
    shown_case(5, &[1, 1]);
}

#[test]
fn c6() {
    shown_case(6, &[1, 0, 0]);
}

#[test]
fn c7() {
    shown_case(7, &[1, 1, 0]);
}

#[test]
fn c8() {
    shown_case(8, &[1, 1, 0, 0]);
}

#[test]
fn c9() {
    shown_case(9, &[0]);
}

#[test]
fn c10() {
    shown_case(10, &[1]);
}

fn record_words(next: u64, relation: u64, label: u64, flag: u64) -> Vec<u64> {
    let mut words = vec![next, relation, label, flag];
    words.resize(RECORD, 0);
    words
}

#[test]
fn c11() {
    let mut words = case_table(11).words();
    let before = words.clone();
    let mut written = vec![9; layout::DELTA];
    assert_eq!(deletion(&herd(), &mut words, &mut written, DELETED), Ok(()));
    let mut expected = before;
    expected[layout::record(1) + FLAG] = 1;
    assert_eq!(words, expected);
    let mut expected = vec![1, 2, 1, 0, 0, 1];
    expected.resize(HEADER, 0);
    expected.extend(record_words(0, 2, 513, 1));
    expected.resize(layout::DELTA, 0);
    assert_eq!(written, expected);
    assert_eq!(marks_of(&herd(), &words), (0, vec![0, 0]));
}

#[test]
fn c12() {
    let mut words = case_table(12).words();
    let before = words.clone();
    let mut written = vec![9; layout::DELTA];
    assert_eq!(deletion(&herd(), &mut words, &mut written, DELETED), Ok(()));
    let mut expected = before;
    expected[layout::record(0) + FLAG] = 2;
    expected[layout::record(1) + FLAG] = 1;
    assert_eq!(words, expected);
    let mut expected = vec![1, 2, 2, 0, 1, 2];
    expected.resize(HEADER, 0);
    expected.extend(record_words(0, 1, 257, 2));
    expected.extend(record_words(0, 2, 513, 1));
    expected.resize(layout::DELTA, 0);
    assert_eq!(written, expected);
    assert_eq!(marks_of(&herd(), &words), (2, vec![1, 0, 1]));
}

#[test]
fn labels() {
    assert_eq!(label_of(2, 1), 513);
    assert_eq!(label_of(LARGEST_COUNTER, 255), (1 << 48) - 1);
    for (counter, replica) in [(0, 1), (1, 0), (1, 256), (LARGEST_COUNTER + 1, 1), (u64::MAX, 1)] {
        assert_eq!(label_of(counter, replica), 0);
    }
    assert!(is_label(257) && !is_label(256) && !is_label(1) && !is_label(0) && !is_label(1 << 48));
}

#[test]
fn flags() {
    assert_eq!([0, 1, 65_534, 65_535].map(delete), [1, 1, 65_535, 65_535]);
    assert_eq!([0, 1, 65_533, 65_534].map(redo), [0, 2, 65_534, 65_534]);
}
