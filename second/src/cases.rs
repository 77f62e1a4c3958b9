//! The cases C1 to C12 of document 01.

use crate::edit::deletion;
use crate::label::{join_flags, join_registers, label_of, Register};
use crate::layout::{
    self, abort, propagation, Form, FIELD_COUNT, KINDS, NEW, PLAIN, RELATION_COUNT,
};
use crate::list::list;
use crate::number;
use crate::shown::marks;
use crate::table::{Record, Table};

pub const GROUP: u64 = 1;
pub const COW: u64 = 2;
pub const MILKING: u64 = 3;

/// The words of a schema from the kinds and the two masks of each relation.
pub fn schema_words(relations: &[(&[u64], u64, u64)]) -> Vec<u64> {
    schema_words_in(NEW, relations)
}

/// The same in a form that has the fields.
pub fn schema_words_in(form: Form, relations: &[(&[u64], u64, u64)]) -> Vec<u64> {
    let mut words = vec![0; form.schema()];
    words[RELATION_COUNT] = relations.len() as u64;
    for (at, (kinds, first, second)) in relations.iter().enumerate() {
        let begin = form.block(at + 1);
        words[begin + FIELD_COUNT] = kinds.len() as u64;
        words[begin + KINDS..][..kinds.len()].copy_from_slice(kinds);
        words[begin + form.masks()] = *first;
        words[begin + form.masks() + 1] = *second;
    }
    words
}

/// Groups, cows and milkings.
pub fn herd() -> Vec<u64> {
    herd_in(NEW)
}

/// The same in a form.
pub fn herd_in(form: Form) -> Vec<u64> {
    let group: (&[u64], u64, u64) = (&[PLAIN], 1, 0);
    let (cow, milking) = ([PLAIN, abort(GROUP)], [propagation(COW), PLAIN]);
    schema_words_in(form, &[group, (&cow, 1, 0), (&milking, 0, 0)])
}

/// A record whose registers are all stamped with its own label.
pub fn record(relation: u64, label: u64, flag: u64, values: &[u64]) -> Record {
    let registers = values.iter().map(|value| Register { value: *value, stamp: label }).collect();
    Record { relation, label, flag, registers }
}

/// A table of replica 1 with exactly these records.
pub fn table_of(clock: u64, records: Vec<Record>) -> Table {
    Table { capacity: records.len(), replica: 1, clock, records }
}

fn group(flag: u64) -> Record {
    record(GROUP, label_of(1, 1), flag, &[12])
}

fn cow(replica: u64, flag: u64, tag: u64, group: u64) -> Record {
    record(COW, label_of(2, replica), flag, &[tag, group])
}

fn milking(cow: u64) -> Record {
    record(MILKING, label_of(3, 1), 0, &[cow, 9000])
}

/// The table of one of C5 to C12, before the deletion in C11 and C12.
pub fn table(case: u64) -> Table {
    let first = label_of(1, 1);
    match case {
        5 | 11 => table_of(2, vec![group(1), cow(1, 0, 40, first)]),
        6 => table_of(3, vec![group(0), cow(1, 1, 40, first), milking(label_of(2, 1))]),
        7 => table_of(2, vec![group(0), cow(1, 0, 40, first), cow(2, 0, 40, first)]),
        8 => table_of(
            3,
            vec![group(0), cow(1, 0, 40, first), cow(2, 0, 40, first), milking(label_of(2, 2))],
        ),
        9 => table_of(9, vec![cow(1, 0, 40, label_of(9, 9))]),
        10 => table_of(2, vec![cow(1, 0, 40, 0)]),
        12 => table_of(2, vec![group(1), cow(1, 0, 40, first), cow(2, 0, 41, first)]),
        _ => table_of(0, vec![]),
    }
}

/// The index of the record that C11 and C12 delete.
pub const DELETED: u64 = 2;

fn joined(words: &[u64]) -> String {
    words.iter().map(|word| word.to_string()).collect::<Vec<_>>().join(" ")
}

/// The bytes of the words, little-endian.
pub fn bytes_of(words: &[u64]) -> Vec<u8> {
    words.iter().flat_map(|word| word.to_le_bytes()).collect()
}

fn item(text: &mut String, name: &str, rest: &str) {
    text.push_str(name);
    if !rest.is_empty() {
        text.push(' ');
        text.push_str(rest);
    }
    text.push('\n');
}

fn shown_items(text: &mut String, schema: &[u64], words: &[u64], capacity: usize, after: &str) {
    let mut found = vec![0; capacity];
    let _ = marks(schema, words, &mut found);
    let found: Vec<u64> = found.iter().map(|mark| *mark as u64).collect();
    item(text, &format!("marks{}", after), &joined(&found));
    let input = [bytes_of(schema), bytes_of(words)].concat();
    for line in list(&input).lines() {
        item(text, &format!("list{}", after), line);
    }
}

fn register_case(text: &mut String, name: &str, a: Register, b: Register) {
    let (c, _) = join_registers(a, b);
    item(text, name, "");
    for (side, register) in [("left", a), ("right", b), ("result", c)] {
        item(text, side, &joined(&[register.value, register.stamp]));
    }
}

/// All twelve cases, in the format that docs/VECTORS.md tells.
pub fn text() -> String {
    let mut text = String::new();
    let five = Register { value: 5, stamp: 257 };
    register_case(&mut text, "C1", five, Register { value: 7, stamp: 514 });
    register_case(&mut text, "C2", five, Register { value: 7, stamp: 257 });
    register_case(&mut text, "C3", Register::default(), five);
    item(&mut text, "C4", "");
    for (side, flag) in [("left", 1), ("right", 2), ("result", join_flags(1, 2).0)] {
        item(&mut text, side, &joined(&[flag]));
    }
    let schema = herd();
    for case in 5..=12 {
        let table = table(case);
        let mut words = table.words();
        item(&mut text, &format!("C{}", case), "");
        item(&mut text, "schema", &joined(&schema));
        item(&mut text, "table", &joined(&words));
        shown_items(&mut text, &schema, &words, table.capacity, "");
        if case >= 11 {
            let mut delta = vec![0; layout::DELTA];
            let answer = deletion(&schema, &mut words, &mut delta, DELETED);
            item(&mut text, "deletion", &joined(&[DELETED]));
            item(&mut text, "answer", &joined(&[number(&answer)]));
            item(&mut text, "table-after", &joined(&words));
            item(&mut text, "delta-after", &joined(&delta));
            shown_items(&mut text, &schema, &words, table.capacity, "-after");
        }
    }
    text
}
