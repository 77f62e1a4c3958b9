//! Table checks.

use super::damage::{
    break_chain, break_schema, break_table, reference_field, some_record, wrong_length,
};
use super::items::Items;
use super::schemas::limit_schema;
use super::sources::{any_table, filled_table};
use crate::label::{label_of, Register, LARGEST_COUNTER};
use crate::layout::{
    self, CLOCK, FIELDS, FLAG, HEADER, LABEL, NEXT, RECORD, RELATION, RELATION_COUNT, REPLICA,
    STAMPS, USED, VALUES, ZERO, ZEROS,
};
use crate::random::{self, Random, Shape as TableShape};
use crate::vectors::item::TABLE_CHECK;

/// A well-formed table with something at its limit.
fn limit_table(random: &mut Random, schema: &[u64]) -> Vec<u64> {
    let decoded = random::decoded(schema);
    let shape = TableShape::small(random);
    let mut table = random::table(random, &decoded, &shape);
    let at = random.below(table.records.len().max(1) as u64) as usize;
    table.clock = random::least_clock(&decoded, &table.records);
    match random.below(10) {
        0 => table.replica = 255,
        1 => table.clock = LARGEST_COUNTER,
        2 => table.capacity = table.records.len(),
        3 => table.capacity = table.records.len() + 1,
        _ => {}
    }
    let Some(record) = table.records.get_mut(at) else {
        return table.words();
    };
    let kinds = decoded.relation(record.relation).map_or(vec![], |of| of.kinds.clone());
    let field = random.below(kinds.len() as u64) as usize;
    let last = label_of(table.clock, 255);
    match random.below(8) {
        0 => record.flag = 65_535,
        1 => record.flag = 65_534,
        2 => record.registers[field] = Register::default(),
        3 => record.registers.fill(Register::default()),
        4 if last != 0 => record.registers[field].stamp = last,
        5 if record.registers[field].stamp == 0 => {}
        5 if kinds[field].target().is_some() => record.registers[field].value = last,
        5 => record.registers[field].value = u64::MAX,
        6 => record.registers[field].value = 0,
        _ => {}
    }
    table.words()
}

/// For one rule of a table: words at its limit, and words just beyond. The base has a record, its
/// clock is the least, and it has room for one more record.
fn table_pair(
    rule: u64,
    random: &mut Random,
    schema: &[u64],
    base: &[u64],
) -> (Vec<u64>, Vec<u64>) {
    let (begin, fields) = some_record(random, schema, base);
    let field = random.below(fields as u64) as usize;
    let reference = reference_field(random, schema, base, begin);
    let (clock, used) = (base[CLOCK], base[USED]);
    let last = label_of(clock, 255);
    let next = label_of(clock + 1, 1);
    let end = layout::record(used as usize);
    let with = |changes: &[(usize, u64)]| {
        let mut words = base.to_vec();
        for (at, word) in changes {
            words[*at] = *word;
        }
        words
    };
    let one = |at: usize, limit: u64, beyond: u64| (with(&[(at, limit)]), with(&[(at, beyond)]));
    let relation = layout::first(base[begin + RELATION] as usize);
    let first = layout::record(base[relation] as usize - 1);
    let (value, stamp) = (begin + VALUES + field, begin + STAMPS + field);
    match rule {
        0 => one(REPLICA, 1, 0),
        1 => one(REPLICA, 255, 256),
        2 => one(CLOCK, LARGEST_COUNTER, LARGEST_COUNTER + 1),
        3 => one(CLOCK, clock, clock - 1),
        4 => (base[..end].to_vec(), {
            let mut words = base[..end].to_vec();
            words[USED] += 1;
            words
        }),
        5 => one(USED, used, used + 1),
        6 => one(ZERO, 0, 1),
        7 => one(ZEROS + random.below((HEADER - ZEROS) as u64) as usize, 0, 1),
        8 => one(begin + FLAG, 65_535, 65_536),
        9 => one(stamp, last, next),
        10 => one(stamp, label_of(clock, 1), clock * 256),
        11 => one(stamp, label_of(1, 255), 255),
        12 => (with(&[(value, 0), (stamp, 0)]), with(&[(value, 257), (stamp, 0)])),
        13 | 14 if reference.is_some() => {
            let field = reference.unwrap_or(0);
            let at = begin + VALUES + field;
            let used = with(&[(begin + STAMPS + field, base[begin + LABEL])]);
            let with_value = |value: u64| {
                let mut words = used.clone();
                words[at] = value;
                words
            };
            if rule == 13 {
                (with_value(last), with_value(next))
            } else {
                (with_value(0), with_value(1))
            }
        }
        15 if fields < FIELDS => one(begin + VALUES + fields, 0, 1),
        16 if fields < FIELDS => one(begin + STAMPS + fields, 0, 257),
        17 if fields < FIELDS => one(begin + STAMPS - 1, 0, 1),
        18 if fields < FIELDS => one(begin + RECORD - 1, 0, 257),
        19 => one(end, 0, 1),
        20 => one(base.len() - 1, 0, 1),
        21 => one(end + LABEL, 0, 257),
        22 => one(relation, base[relation], used + 1),
        23 => one(relation, base[relation], 0),
        24 => one(begin + NEXT, base[begin + NEXT], used + 1),
        25 if base[first + NEXT] != 0 => {
            let second = layout::record(base[first + NEXT] as usize - 1);
            one(first + LABEL, base[first + LABEL], base[second + LABEL])
        }
        26 => one(first + LABEL, base[first + LABEL], base[first + LABEL] / 256 * 256),
        27 => one(begin + LABEL, base[begin + LABEL], next),
        28 => one(begin + RELATION, base[begin + RELATION], schema[RELATION_COUNT] + 1),
        _ => one(begin + RELATION, base[begin + RELATION], 0),
    }
}

pub fn table_pairs(items: &mut Items, random: &mut Random) {
    for rule in 0..30 {
        for _ in 0..6 {
            let schema = random::schema(random);
            let decoded = random::decoded(&schema);
            let mut shape = TableShape::small(random);
            shape.used = shape.used.max(2);
            shape.base = shape.base.min(LARGEST_COUNTER - 40);
            let mut table = random::table(random, &decoded, &shape);
            table.clock = random::least_clock(&decoded, &table.records);
            table.capacity = table.records.len() + 1;
            let (limit, beyond) = table_pair(rule, random, &schema, &table.words());
            items.push(7, TABLE_CHECK, vec![schema.clone(), limit], vec![]);
            items.push(8, TABLE_CHECK, vec![schema, beyond], vec![]);
        }
    }
}

pub fn tables(items: &mut Items, random: &mut Random) {
    for _ in 0..300 {
        let schema = random::schema(random);
        let (words, category) = any_table(random, &schema);
        items.push(category, TABLE_CHECK, vec![schema, words], vec![]);
    }
    for _ in 0..300 {
        let schema =
            if random.chance(1, 2) { random::schema(random) } else { limit_schema(random) };
        let words = limit_table(random, &schema);
        items.push(7, TABLE_CHECK, vec![schema, words], vec![]);
    }
    for round in 0..800 {
        let schema = random::schema(random);
        let mut words = filled_table(random, &schema);
        break_table(random, &schema, &mut words);
        if round % 4 == 3 {
            break_table(random, &schema, &mut words);
        }
        let category = if round % 4 == 3 { 9 } else { 8 };
        items.push(category, TABLE_CHECK, vec![schema, words], vec![]);
    }
    for _ in 0..300 {
        let schema = random::schema(random);
        let mut words = filled_table(random, &schema);
        break_chain(random, &schema, &mut words);
        items.push(10, TABLE_CHECK, vec![schema, words], vec![]);
    }
    for _ in 0..60 {
        let mut schema = random::schema(random);
        let (mut words, _) = any_table(random, &schema);
        wrong_length(random, &mut words);
        if random.chance(1, 4) {
            schema.pop();
        }
        items.push(11, TABLE_CHECK, vec![schema, words], vec![]);
    }
    for _ in 0..60 {
        let mut schema = random::schema(random);
        let (mut words, _) = any_table(random, &schema);
        break_schema(random, &mut schema);
        if random.chance(1, 4) {
            words.push(0);
        }
        items.push(24, TABLE_CHECK, vec![schema, words], vec![]);
    }
}
