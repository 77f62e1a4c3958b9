//! Marks and walks.

use super::damage::{break_schema, break_table};
use super::items::Items;
use super::sources::{any_table, capacity, filled_table, marks_words};
use crate::cases::{herd, record, schema_words};
use crate::label::{label_of, Register};
use crate::layout::{abort, propagation, PLAIN, USED};
use crate::random::{self, Random};
use crate::table::{Record, Table};
use crate::vectors::item::{MARKS, WALK};

/// Nodes by abort: chains many hops deep, broken now and then.
fn abort_chain(random: &mut Random) -> (Vec<u64>, Vec<u64>) {
    let used = 2 + random.below(18);
    let mut records: Vec<Record> = (1..=used)
        .map(|at| {
            let values = [label_of(at - 1, 1), 0, at];
            record(1, label_of(at, 1), (at < used) as u64, &values)
        })
        .collect();
    for _ in 0..random.below(4) {
        let at = random.below(used) as usize;
        match random.below(6) {
            0 => records[at].flag = random.below(4),
            1 => records[at].registers[2] = Register::default(),
            2 => records[at].registers[0].value = label_of(1 + random.below(used), 1),
            3 => records[at].registers[1].value = label_of(1 + random.below(used), 1),
            4 => records[at].registers[0].value = 0,
            _ => records[at].registers[2].value = 1 + random.below(3),
        }
    }
    let list = records.clone();
    random.shuffle(&mut records);
    let clock = random::least_clock(&random::decoded(&random::nodes()), &list);
    (random::nodes(), Table { capacity: used as usize + 1, replica: 1, clock, records }.words())
}

/// Nodes that reference each other, themselves and unknown ones.
fn rings(random: &mut Random) -> (Vec<u64>, Vec<u64>) {
    let used = 1 + random.below(8);
    let schema = random::pick_schema(random, &[random::nodes(), random::pair()]);
    let decoded = random::decoded(&schema);
    let mut records = Vec::new();
    for at in 1..=used {
        let relation = 1 + random.below(decoded.relations.len() as u64);
        let kinds = decoded.relation(relation).map_or(vec![], |of| of.kinds.clone());
        let values: Vec<u64> = kinds
            .iter()
            .map(|kind| match kind.target() {
                None => random.below(30),
                Some(_) if random.chance(1, 8) => 0,
                Some(_) if random.chance(1, 3) => label_of(at, 1),
                Some(_) => {
                    let unknown = random.below(2);
                    label_of(1 + random.below(used + unknown), 1)
                }
            })
            .collect();
        let flag = random.pick(&[0, 0, 0, 1]);
        records.push(record(relation, label_of(at, 1), flag, &values));
    }
    let clock = random::least_clock(&decoded, &records);
    random.shuffle(&mut records);
    (schema, Table { capacity: used as usize, replica: 1, clock, records }.words())
}

/// Records with few distinct key values, under two keys and under keys with references.
fn keyed(random: &mut Random) -> (Vec<u64>, Vec<u64>) {
    let two = schema_words(&[
        (&[PLAIN, PLAIN], 1, 2),
        (&[PLAIN, abort(1)], 3, 1),
        (&[propagation(2), propagation(1), PLAIN], 3, 0),
    ]);
    let schema = random::pick_schema(random, &[two, herd(), random::pair(), random::nodes()]);
    let decoded = random::decoded(&schema);
    let used = 3 + random.below(9);
    let mut records: Vec<Record> = Vec::new();
    for at in 1..=used {
        let relation = 1 + random.below(decoded.relations.len() as u64);
        let kinds = decoded.relation(relation).map_or(vec![], |of| of.kinds.clone());
        let values: Vec<u64> = kinds
            .iter()
            .map(|kind| match kind.target() {
                None => random.below(2),
                Some(target) => {
                    let known: Vec<u64> = records
                        .iter()
                        .filter(|record| record.relation == target)
                        .map(|record| record.label)
                        .collect();
                    match random.below(5) {
                        0 => 0,
                        1 => label_of(1 + random.below(used), 2),
                        _ if known.is_empty() => 0,
                        _ => random.pick(&known),
                    }
                }
            })
            .collect();
        records.push(record(relation, label_of(at, 1), random.pick(&[0, 0, 0, 0, 2, 1]), &values));
    }
    let clock = random::least_clock(&decoded, &records);
    random.shuffle(&mut records);
    (schema, Table { capacity: used as usize + 2, replica: 1, clock, records }.words())
}

pub fn marks_items(items: &mut Items, random: &mut Random) {
    for (category, count) in [(19, 400), (20, 400), (21, 500), (22, 600)] {
        for _ in 0..count {
            let (schema, words) = match category {
                19 => abort_chain(random),
                20 => rings(random),
                21 => keyed(random),
                _ => {
                    let schema = random::schema(random);
                    let words = any_table(random, &schema).0;
                    (schema, words)
                }
            };
            let marks = marks_words(random, capacity(&words));
            items.push(category, MARKS, vec![schema, words, marks], vec![]);
        }
    }
    for _ in 0..160 {
        let mut schema = random::schema(random);
        let mut words = filled_table(random, &schema);
        let mut marks = marks_words(random, capacity(&words));
        let which = random.below(4);
        if which % 2 == 0 {
            break_table(random, &schema, &mut words);
        }
        if which >= 2 {
            break_schema(random, &mut schema);
        }
        if random.chance(1, 3) {
            marks.resize(random.pick(&[0, marks.len() + 1, marks.len() - 1]), 1);
        }
        items.push(24, MARKS, vec![schema, words, marks], vec![]);
    }
}

pub fn walks(items: &mut Items, random: &mut Random) {
    for _ in 0..90 {
        let schema = random::schema(random);
        let words = filled_table(random, &schema);
        let mut marks = marks_words(random, capacity(&words));
        if random.chance(1, 6) {
            marks.fill(0);
        }
        for place in 0..=words[USED] {
            items.push(22, WALK, vec![schema.clone(), words.clone(), marks.clone()], vec![place]);
        }
        let wrong = random.pick(&[words[USED] + 1, capacity(&words) as u64 + 1, u64::MAX]);
        items.push(14, WALK, vec![schema, words, marks], vec![wrong]);
    }
    for _ in 0..160 {
        let mut schema = random::schema(random);
        let mut words = filled_table(random, &schema);
        let mut marks = marks_words(random, capacity(&words));
        let place = random.below(words[USED] + 1);
        match random.below(4) {
            0 => break_table(random, &schema, &mut words),
            1 => break_schema(random, &mut schema),
            2 => marks.resize(random.pick(&[0, marks.len() + 1]), 1),
            _ => words[USED] = u64::MAX,
        }
        items.push(24, WALK, vec![schema, words, marks], vec![place]);
    }
}
