//! What edits redo, and their deltas.

use super::{delta, made, marks_of};
use crate::cases::{record, schema_words};
use crate::layout::{self, abort, propagation, FLAG, PLAIN, USED};
use crate::random::{self, Random, Shape};
use crate::vectors::random_edit;
use crate::{deletion, insertion, merge, table_check, update};

#[test]
fn target_is_redone_once() {
    let schema = schema_words(&[(&[PLAIN], 0, 0), (&[abort(1), propagation(1), abort(1)], 0, 0)]);
    let records = vec![record(1, 257, 1, &[12]), record(2, 513, 0, &[257, 257, 257])];
    let mut words = made(&schema, 4, records).words();
    let mut written = delta();
    assert_eq!(insertion(&schema, &mut words, &mut written, 2, &[257, 257, 257]), Ok(769));
    assert_eq!(
        (words[layout::record(0) + FLAG], written[USED], written[layout::record(0) + FLAG]),
        (2, 2, 2)
    );
}

#[test]
fn deletion_redoes_on_behalf_of_a_propagation_reference() {
    let schema = schema_words(&[(&[PLAIN], 0, 0), (&[abort(1)], 0, 0), (&[propagation(1)], 0, 0)]);
    let records =
        vec![record(1, 257, 1, &[12]), record(2, 513, 0, &[257]), record(3, 769, 0, &[257])];
    let mut words = made(&schema, 3, records).words();
    assert_eq!(deletion(&schema, &mut words, &mut delta(), 2), Ok(()));
    assert_eq!(words[layout::record(0) + FLAG], 2);
}

#[test]
fn accepted_update_may_hide_its_record() {
    let schema = schema_words(&[(&[abort(1), propagation(1)], 0, 0)]);
    let records = vec![record(1, 257, 0, &[513, 513]), record(1, 513, 1, &[0, 0])];
    let mut words = made(&schema, 2, records).words();
    assert_eq!(marks_of(&schema, &words).1, vec![1, 1]);
    assert_eq!(update(&schema, &mut words, &mut delta(), 1, 1, 0), Ok(()));
    assert_eq!(marks_of(&schema, &words).1, vec![0, 0]);
}

#[test]
fn own_table_equals_merge_with_delta() {
    let mut random = Random::new(2);
    let mut done = 0;
    for _ in 0..40_000 {
        let schema = random::schema(&mut random);
        let shape = Shape::small(&mut random);
        let words = random::table(&mut random, &random::decoded(&schema), &shape).words();
        let (mut own, mut written) = (words.clone(), delta());
        let answer = random_edit(&mut random, &schema, &own).run(&schema, &mut own, &mut written).0;
        if answer == 0 {
            done += 1;
            assert_eq!(table_check(&schema, &written), Ok(()));
            let mut merged = words.clone();
            assert_eq!(merge(&schema, &mut merged, &written), Ok(written[USED] as usize));
            assert_eq!(merged, own);
            assert_eq!(merge(&schema, &mut merged, &written), Ok(0));
        } else {
            assert_eq!(own, words);
            assert_eq!(written, delta());
        }
        assert_eq!(table_check(&schema, &own), Ok(()));
    }
    assert!(done > 5_000);
}
