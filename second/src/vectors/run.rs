//! An item run on the second implementation.

use super::digest::digest;
use super::fleet::Fleet;
use super::item::*;
use crate::book;
use crate::compare::told;
use crate::label::{delete, join_flags, join_registers, label_of, redo, Register};
use crate::layout::FIELDS;
use crate::shown::given;
use crate::{
    compare, deletion, insertion, lookup, marks, merge, narrow, number, schema_check, start,
    table_check, update, values, walk, widen,
};

fn result(word: u64) -> Outcome {
    outcome(0, vec![word], vec![])
}

fn bytes(words: &[u64]) -> Vec<u8> {
    words.iter().map(|word| *word as u8).collect()
}

fn run_scalar(call: u8, w: &[u64]) -> Outcome {
    match call {
        LABEL_OF => result(label_of(w[0], w[1])),
        REGISTER_JOIN => {
            let a = Register { value: w[0], stamp: w[1] };
            let (joined, changed) = join_registers(a, Register { value: w[2], stamp: w[3] });
            outcome(0, vec![joined.value, joined.stamp, changed as u64], vec![])
        }
        FLAG_JOIN => {
            let (joined, changed) = join_flags(w[0], w[1]);
            outcome(0, vec![joined, changed as u64], vec![])
        }
        DELETE => result(delete(w[0])),
        _ => result(redo(w[0])),
    }
}

fn run_edit(item: &Item) -> Outcome {
    let (s, w) = (&item.slices, &item.words);
    let (mut own, mut delta) = (s[1].clone(), s[2].clone());
    let (answer, results) = match item.call {
        INSERTION => {
            let answer = insertion(&s[0], &mut own, &mut delta, w[0], &s[3]);
            (number(&answer), vec![answer.unwrap_or(0)])
        }
        UPDATE => (number(&update(&s[0], &mut own, &mut delta, w[0], w[1], w[2])), vec![]),
        _ => (number(&deletion(&s[0], &mut own, &mut delta, w[0])), vec![]),
    };
    outcome(answer, results, vec![own, delta])
}

fn run_table(item: &Item) -> Outcome {
    let (s, w) = (&item.slices, &item.words);
    match item.call {
        SCHEMA_CHECK => outcome(number(&schema_check(&s[0])), vec![], vec![]),
        TABLE_CHECK => outcome(number(&table_check(&s[0], &s[1])), vec![], vec![]),
        START => {
            let mut own = s[0].clone();
            let answer = number(&start(&mut own, w[0]));
            outcome(answer, vec![], vec![own])
        }
        RECORD_VALUES => {
            let part = values(&s[0], w[0]);
            let mut results = part.to_vec();
            results.resize(FIELDS, 0);
            outcome(part.is_empty() as u64, results, vec![])
        }
        MERGE => {
            let mut own = s[1].clone();
            let answer = merge(&s[0], &mut own, &s[2]);
            outcome(number(&answer), vec![answer.unwrap_or(0) as u64], vec![own])
        }
        COMPARE => {
            let answer = compare(&s[0], &s[1], &s[2]);
            outcome(number(&answer), vec![told(&answer)], vec![])
        }
        LOOKUP => {
            let answer = lookup(&s[0], &s[1], w[0], w[1]);
            outcome(number(&answer), vec![answer.unwrap_or(0)], vec![])
        }
        MARKS => {
            let mut found = bytes(&s[2]);
            let answer = marks(&s[0], &s[1], &mut found);
            let exit = found.iter().map(|mark| *mark as u64).collect();
            outcome(number(&answer), vec![answer.unwrap_or(0)], vec![exit])
        }
        _ => {
            let mut place = w[0];
            let answer = walk(&s[0], &s[1], &bytes(&s[2]), &mut place);
            outcome(number(&answer), vec![given(&answer), place], vec![])
        }
    }
}

fn run_book(item: &Item) -> Outcome {
    let (s, w) = (&item.slices, &item.words);
    if item.call == BOOK_FIND {
        let answer = book::find_milking(&s[0], w[0]);
        return outcome(number(&answer), vec![answer.unwrap_or(0)], vec![]);
    }
    let (mut own, mut delta) = (s[0].clone(), s[1].clone());
    let (answer, results) = match item.call {
        BOOK_ENTER => {
            let answer = book::enter(&mut own, &mut delta, w[0], &s[2]);
            (number(&answer), vec![answer.unwrap_or(0)])
        }
        BOOK_CHANGE => {
            (number(&book::change(&mut own, &mut delta, w[0], w[1], w[2], w[3])), vec![])
        }
        _ => (number(&book::strike(&mut own, &mut delta, w[0], w[1])), vec![]),
    };
    outcome(answer, results, vec![own, delta])
}

/// The schema turned and the one written stand in one slice; the digest of the latter comes back.
fn run_turn(item: &Item) -> Outcome {
    let s = &item.slices;
    let (schema, written) = s[0].split_at(s[0].len().min(item.words[0] as usize));
    let (mut written, mut table) = (written.to_vec(), s[2].clone());
    let answer = match item.call {
        WIDEN => widen(schema, &s[1], &mut written, &mut table),
        _ => narrow(schema, &s[1], &mut written, &mut table),
    };
    let sum = written.iter().fold(0, |sum, word| digest(sum, *word));
    outcome(number(&answer), vec![sum], vec![table])
}

/// Runs an item; the fleet is the state of the fleet items.
pub fn run(fleet: &mut Fleet, item: &Item) -> Outcome {
    match item.call {
        LABEL_OF..=REDO => run_scalar(item.call, &item.words),
        INSERTION..=DELETION => run_edit(item),
        FLEET_BEGIN..=FLEET_WALK => fleet.run(item),
        BOOK_ENTER..=BOOK_FIND => run_book(item),
        WIDEN | NARROW => run_turn(item),
        _ => run_table(item),
    }
}
