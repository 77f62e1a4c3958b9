//! The four steps.

use super::{made, marks_of};
use crate::cases::{herd, record, COW};
use crate::label::label_of;
use crate::random::{self, Random, Shape};
use crate::schema::Schema;
use crate::table::Table;

#[test]
fn step_three_winner_lost_in_step_four() {
    let schema = herd();
    let records = vec![
        record(1, 257, 0, &[12]),
        record(COW, 513, 0, &[40, label_of(9, 9)]),
        record(COW, 769, 0, &[40, 257]),
    ];
    let words = made(&schema, 3, records).words();
    assert_eq!(marks_of(&schema, &words).1, vec![1, 0, 0]);
}

#[test]
fn mutual_references_stay() {
    let schema = random::nodes();
    let records = vec![record(1, 257, 0, &[0, 513, 1]), record(1, 513, 0, &[0, 257, 2])];
    let words = made(&schema, 2, records).words();
    assert_eq!(marks_of(&schema, &words).1, vec![1, 1]);
}

/// The four steps as the text has them, with all subsets tried in the fourth.
fn shown_by_definition(schema: &Schema, table: &Table) -> Vec<bool> {
    let records = &table.records;
    let all = 0..records.len();
    let kinds = |at: usize| &schema.relation(records[at].relation).unwrap().kinds;
    let value = |at: usize, field: usize| records[at].registers[field].value;
    let leads = |at: usize, field: usize, to: usize| {
        kinds(at)[field].target() == Some(records[to].relation)
            && value(at, field) != 0
            && value(at, field) == records[to].label
    };
    let mut stands: Vec<bool> =
        records.iter().map(|record| record.is_complete() && record.is_even()).collect();
    for _ in all.clone() {
        for (a, b) in all.clone().flat_map(|a| all.clone().map(move |b| (a, b))) {
            let reached = (0..kinds(a).len())
                .any(|field| kinds(a)[field].abort_target().is_some() && leads(a, field, b));
            if stands[a] && reached && records[b].is_complete() {
                stands[b] = true;
            }
        }
    }
    let conflict = |a: usize, b: usize| {
        records[a].relation == records[b].relation
            && schema.relation(records[a].relation).unwrap().keys.iter().any(|key| {
                key.iter().all(|field| {
                    let empty = kinds(a)[*field].target().is_some() && value(a, *field) == 0;
                    value(a, *field) == value(b, *field) && !empty
                })
            })
    };
    let mut rest: Vec<usize> = Vec::new();
    let mut by_label: Vec<usize> = all.clone().filter(|at| stands[*at]).collect();
    by_label.sort_by_key(|at| records[*at].label);
    for at in by_label {
        if !rest.iter().any(|older| conflict(*older, at)) {
            rest.push(at);
        }
    }
    let mut shown = vec![false; records.len()];
    for subset in 0..1u32 << rest.len() {
        let members: Vec<usize> =
            (0..rest.len()).filter(|bit| subset >> bit & 1 == 1).map(|bit| rest[bit]).collect();
        let closed = members.iter().all(|at| {
            (0..kinds(*at).len()).all(|field| {
                kinds(*at)[field].target().is_none()
                    || value(*at, field) == 0
                    || members.iter().any(|to| leads(*at, field, *to))
            })
        });
        if closed {
            members.iter().for_each(|at| shown[*at] = true);
        }
    }
    shown
}

#[test]
fn shown_is_as_defined() {
    let mut random = Random::new(6);
    for _ in 0..8_000 {
        let schema = random::decoded(&random::schema(&mut random));
        let mut shape = Shape::small(&mut random);
        shape.high_flags = 0;
        let table = random::table(&mut random, &schema, &shape);
        assert_eq!(crate::shown::shown(&schema, &table), shown_by_definition(&schema, &table));
    }
}
