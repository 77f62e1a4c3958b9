//! The numbers go in order.

use super::{delta, made, marks_of, random_read};
use crate::cases::{herd, record, table as case_table};
use crate::label::{label_of, LARGEST_COUNTER};
use crate::layout::{self, CLOCK, FIELDS, HEADER, RECORD, USED};
use crate::{
    deletion, insertion, marks, merge, number, schema_check, start, table_check, update, values,
    walk,
};

/// A field that no relation has.
const NO_FIELD: u64 = FIELDS as u64 + 1;

#[test]
fn order_of_checks() {
    let (good, broken) = (herd(), vec![0; layout::SCHEMA]);
    let damaged = vec![0; layout::table(1)];
    let mut own = damaged.clone();
    assert_eq!(number(&schema_check(&broken[..layout::SCHEMA - 1])), 1);
    assert_eq!(number(&schema_check(&broken)), 2);
    assert_eq!(number(&table_check(&broken, &own[..HEADER + 1])), 1);
    assert_eq!(number(&table_check(&broken, &own)), 2);
    assert_eq!(number(&table_check(&good, &own)), 3);
    assert_eq!(number(&start(&mut own[..HEADER + 1], 0)), 1);
    assert_eq!(number(&start(&mut own, 0)), 5);
    assert_eq!(number(&start(&mut own, 256)), 5);
    assert_eq!(number(&update(&broken, &mut own, &mut delta(), 1, NO_FIELD, 0)), 1);
    own[USED] = 1;
    assert_eq!(number(&update(&broken, &mut own, &mut delta(), 2, NO_FIELD, 0)), 1);
    assert_eq!(number(&update(&broken, &mut own, &mut delta(), 1, NO_FIELD, 0)), 2);
    assert_eq!(number(&update(&good, &mut own, &mut delta(), 1, NO_FIELD, 0)), 3);
    own[USED] = u64::MAX;
    assert_eq!(number(&deletion(&broken, &mut own, &mut delta(), 2)), 1);
    assert_eq!(number(&deletion(&broken, &mut own, &mut delta(), 1)), 2);
    assert_eq!(number(&deletion(&good, &mut own, &mut vec![0; layout::DELTA - RECORD], 1)), 1);
    assert_eq!(
        number(&insertion(&broken, &mut own, &mut vec![0; layout::DELTA - RECORD], 0, &[])),
        1
    );
    assert_eq!(number(&insertion(&broken, &mut own, &mut delta(), 0, &[])), 2);
    assert_eq!(number(&insertion(&good, &mut own, &mut delta(), 0, &[])), 3);
    assert_eq!(number(&merge(&broken, &mut own, &damaged)), 2);
    assert_eq!(number(&merge(&good, &mut own, &damaged)), 3);
    start(&mut own, 1).unwrap();
    assert_eq!(number(&merge(&good, &mut own, &damaged)), 4);
    assert_eq!(number(&insertion(&good, &mut own, &mut delta(), 0, &[])), 5);
    assert_eq!(number(&insertion(&good, &mut own, &mut delta(), 4, &[])), 5);
    assert_eq!(number(&insertion(&good, &mut own, &mut delta(), 1, &[])), 7);
    assert_eq!(number(&insertion(&good, &mut own, &mut delta(), 2, &[1, 2])), 7);
    assert_eq!(number(&insertion(&good, &mut own, &mut delta(), 2, &[1, 257])), 8);
    assert_eq!(number(&walk(&broken, &own, &[0], &mut 1)), 1);
    assert_eq!(number(&walk(&broken, &own, &[0, 0], &mut 0)), 1);
    assert_eq!(number(&walk(&broken, &own, &[0], &mut 0)), 2);
    assert_eq!(number(&walk(&good, &damaged, &[0], &mut 0)), 3);
    assert_eq!(number(&marks(&broken, &own, &mut [])), 1);
    assert_eq!(number(&marks(&broken, &own, &mut [0])), 2);
    assert_eq!(number(&marks(&good, &damaged, &mut [0])), 3);
    assert!(values(&own, 1).is_empty());
    let mut expected = vec![40, 257];
    expected.resize(FIELDS, 0);
    assert_eq!(values(&case_table(5).words(), 2), &expected);
}

#[test]
fn order_of_edit_checks() {
    let schema = herd();
    // A hidden group, a standing cow in it with a lost group, and a group that can't be redone.
    let records = vec![
        record(1, 257, 1, &[12]),
        record(1, 513, 65_535, &[13]),
        record(2, 769, 0, &[40, 513]),
        record(2, 1025, 0, &[41, label_of(9, 9)]),
    ];
    let mut table = made(&schema, 4, records);
    table.clock = LARGEST_COUNTER;
    let mut words = table.words();
    assert_eq!(marks_of(&schema, &words).1, vec![0, 1, 1, 0]);
    let before = words.clone();
    let mut edit = |relation: u64, given: &[u64]| {
        let answer = number(&insertion(&schema, &mut words, &mut delta(), relation, given));
        assert_eq!(words, before);
        answer
    };
    assert_eq!(edit(2, &[41, 1]), 7);
    assert_eq!(edit(2, &[41, 257]), 8);
    assert_eq!(edit(2, &[41, label_of(LARGEST_COUNTER, 7)]), 8);
    assert_eq!(edit(2, &[41, 513]), 9);
    assert_eq!(edit(2, &[42, 513]), 11);
    let mut table = random_read(&schema, &before);
    table.capacity = 5;
    let mut words = table.words();
    assert_eq!(number(&insertion(&schema, &mut words, &mut delta(), 2, &[42, 513])), 12);
    assert_eq!(number(&update(&schema, &mut words, &mut delta(), 4, NO_FIELD, 0)), 6);
    assert_eq!(number(&update(&schema, &mut words, &mut delta(), 3, 3, 0)), 7);
    assert_eq!(number(&update(&schema, &mut words, &mut delta(), 3, 2, 255)), 7);
    assert_eq!(number(&update(&schema, &mut words, &mut delta(), 3, 2, 257)), 8);
    assert_eq!(number(&update(&schema, &mut words, &mut delta(), 3, 1, 41)), 9);
    assert_eq!(number(&update(&schema, &mut words, &mut delta(), 3, 1, 40)), 12);
    assert_eq!(number(&deletion(&schema, &mut words, &mut delta(), 2)), 10);
    assert_eq!(number(&deletion(&schema, &mut words, &mut delta(), 4)), 6);
    words[CLOCK] = 100;
    assert_eq!(number(&insertion(&schema, &mut words, &mut delta(), 2, &[42, 513])), 13);
    assert_eq!(number(&update(&schema, &mut words, &mut delta(), 3, 2, 513)), 13);
    // No other record holds group 2.1, so the deletion redoes nothing.
    assert_eq!(deletion(&schema, &mut words, &mut delta(), 3), Ok(()));
}
