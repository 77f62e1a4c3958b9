//! The tables, deltas, marks and edits that the items are made of.

use crate::label::label_of;
use crate::layout::{self, FIELDS, HEADER, RECORD, RELATIONS, REPLICA, USED};
use crate::random::{self, Random, Shape as TableShape};
use crate::schema::Kind;
use crate::table::{self, Table};
use crate::vectors::edit::Edit;
use crate::vectors::item::{Item, DELETION, INSERTION, UPDATE};
use crate::{merge, start};

/// A value for a field: mostly one that is accepted.
fn value(random: &mut Random, table: &Table, shown: &[bool], of: u64, kind: (usize, Kind)) -> u64 {
    let Some(relation) = kind.1.target() else {
        let column = table.records.iter().filter(|record| record.relation == of);
        let taken: Vec<u64> = column.map(|record| record.registers[kind.0].value).collect();
        if !taken.is_empty() && random.chance(1, 4) {
            return random.pick(&taken);
        }
        return random.pick(&[0, 7, 40, 41, 50, 51, 52, 53, 54, u64::MAX]);
    };
    let labels = |wanted: bool| -> Vec<u64> {
        let records = table.records.iter().zip(shown);
        let found = records.filter(|(record, is)| record.relation == relation && **is == wanted);
        found.map(|(record, _)| record.label).collect()
    };
    match random.below(16) {
        0..=1 => 0,
        2 => random.pick(&[1, 255, 256, 1 << 48, u64::MAX]),
        3 => label_of(1 + random.below(20), 9),
        4 if !labels(false).is_empty() => random.pick(&labels(false)),
        _ if !labels(true).is_empty() => random.pick(&labels(true)),
        _ => 0,
    }
}

/// An edit of this table, with arguments of which most are accepted.
pub fn random_edit(random: &mut Random, schema: &[u64], own: &[u64]) -> Edit {
    let decoded = random::decoded(schema);
    let table = table::read(&decoded, own).unwrap_or(Table {
        capacity: 0,
        replica: 1,
        clock: 0,
        records: vec![],
    });
    let shown = crate::shown::shown(&decoded, &table);
    let index = if random.chance(1, 16) {
        random.pick(&[0, table.records.len() as u64 + 1, u64::MAX])
    } else {
        1 + random.below(table.records.len().max(1) as u64)
    };
    let kind = if table.records.is_empty() { random.below(9) / 2 } else { random.below(10) };
    if kind < 4 {
        let relation = random.below(decoded.relations.len() as u64) + 1;
        let wrong = [0, RELATIONS as u64 + 1, u64::MAX];
        let relation = if random.chance(1, 24) { random.pick(&wrong) } else { relation };
        let kinds = decoded.relation(relation).map_or(vec![], |of| of.kinds.clone());
        let mut values: Vec<u64> = Vec::new();
        for (field, kind) in kinds.iter().enumerate() {
            values.push(value(random, &table, &shown, relation, (field, *kind)));
        }
        if random.chance(1, 24) {
            values.resize(random.below(FIELDS as u64 + 2) as usize, 0);
        }
        Edit::Insertion { relation, values }
    } else if kind < 8 {
        let record = table.records.get((index as usize).wrapping_sub(1));
        let relation = record.map_or(0, |record| record.relation);
        let kinds = decoded.relation(relation).map_or(vec![], |of| of.kinds.clone());
        let field = 1 + random.below(kinds.len().max(1) as u64);
        let wrong = [0, FIELDS as u64 + 1, u64::MAX];
        let field = if random.chance(1, 24) { random.pick(&wrong) } else { field };
        let column = (field as usize).wrapping_sub(1);
        let kind = kinds.get(column).copied().unwrap_or(Kind::Plain);
        let column = column.min(kinds.len().saturating_sub(1));
        let value = value(random, &table, &shown, relation, (column, kind));
        Edit::Update { index, field, value }
    } else {
        Edit::Deletion { index }
    }
}

/// A table made by calls: a start, edits, and merges with tables made the same way.
pub fn called_table(random: &mut Random, schema: &[u64], capacity: usize, depth: u64) -> Vec<u64> {
    let mut own = vec![0; layout::table(capacity)];
    let _ = start(&mut own, 1 + random.below(4));
    let mut delta = vec![0; layout::DELTA];
    for _ in 0..random.below(10) {
        if depth > 0 && random.chance(1, 8) {
            let other = called_table(random, schema, capacity, depth - 1);
            let _ = merge(schema, &mut own, &other);
        }
        random_edit(random, schema, &own).run(schema, &mut own, &mut delta);
    }
    own
}

/// A well-formed table, and its category.
pub fn any_table(random: &mut Random, schema: &[u64]) -> (Vec<u64>, u8) {
    if random.chance(1, 3) {
        let capacity = 1 + random.below(12) as usize;
        (called_table(random, schema, capacity, 2), 5)
    } else {
        (direct_table(random, schema), 6)
    }
}

pub fn direct_table(random: &mut Random, schema: &[u64]) -> Vec<u64> {
    let shape = TableShape::small(random);
    random::table(random, &random::decoded(schema), &shape).words()
}

/// A table with at least one record.
pub fn filled_table(random: &mut Random, schema: &[u64]) -> Vec<u64> {
    loop {
        let (words, _) = any_table(random, schema);
        if words[USED] > 0 {
            return words;
        }
    }
}

pub fn marks_words(random: &mut Random, length: usize) -> Vec<u64> {
    (0..length).map(|_| random.pick(&[0, 1, 1, 1, 2, 255])).collect()
}

/// A delta buffer; its old contents are ignored.
pub fn delta_words(random: &mut Random) -> Vec<u64> {
    let mut words = vec![0; layout::DELTA];
    if random.chance(1, 3) {
        let at = random.below(layout::DELTA as u64) as usize;
        words[at] = random.next();
        words[REPLICA] = 77;
    }
    words
}

pub fn capacity(words: &[u64]) -> usize {
    words.len().saturating_sub(HEADER) / RECORD
}

pub fn edit_item(category: u8, schema: &[u64], own: &[u64], delta: Vec<u64>, edit: Edit) -> Item {
    let mut slices = vec![schema.to_vec(), own.to_vec(), delta];
    let (call, words) = match edit {
        Edit::Insertion { relation, values } => {
            slices.push(values);
            (INSERTION, vec![relation])
        }
        Edit::Update { index, field, value } => (UPDATE, vec![index, field, value]),
        Edit::Deletion { index } => (DELETION, vec![index]),
    };
    Item { category, call, slices, words }
}

/// A random edit that is accepted: the schema, the table before and after it, and its delta.
pub fn accepted_edit(random: &mut Random) -> (Vec<u64>, Vec<u64>, Vec<u64>, Vec<u64>) {
    loop {
        let schema = random::schema(random);
        let words = filled_table(random, &schema);
        let (mut own, mut delta) = (words.clone(), vec![0; layout::DELTA]);
        let (answer, _) = random_edit(random, &schema, &words).run(&schema, &mut own, &mut delta);
        if answer == 0 {
            return (schema, words, own, delta);
        }
    }
}
