//! Schema checks.

use super::damage::break_schema;
use super::items::Items;
use crate::cases::{herd, schema_words};
use crate::layout::{
    self, abort, mask, propagation, ABORT, BLOCK, BLOCK_ZERO, FIELDS, FIELD_COUNT, KINDS, MASKS,
    OLD, PLAIN, PROPAGATION, RELATIONS, RELATION_COUNT,
};
use crate::random::{self, Random};
use crate::vectors::item::SCHEMA_CHECK;

/// A schema at a limit of its rules.
pub fn limit_schema(random: &mut Random) -> Vec<u64> {
    match random.below(8) {
        0 => schema_words(&[(&[PLAIN; FIELDS], mask(&[1, 2, 3, 4]), mask(&[9, 10, 11, 12]))]),
        1 => schema_words(&[(&[abort(1), propagation(1), PLAIN, PLAIN], 15, 15)]),
        2 => schema_words(&[
            (&[PLAIN, abort(2), propagation(2)], 0, 7),
            (&[abort(1), propagation(1)], 3, 3),
        ]),
        3 => schema_words(&[(&[abort(8), propagation(8), PLAIN][..], 4, 2); RELATIONS]),
        4 => schema_words(&[(&[PLAIN], 0, 0)]),
        5 => schema_words(&[(&[PLAIN; FIELDS][..], mask(&[1, 3, 10, 12]), mask(&[12])); 3]),
        6 => random::wide(),
        _ => random::schema(random),
    }
}

/// For one rule of the schema: words at its limit, and words just beyond. The block is one of a
/// relation with `fields` fields; both are schemas that keep all other rules.
fn schema_pair(rule: u64, base: &[u64], block: usize) -> (Vec<u64>, Vec<u64>) {
    let (relations, fields) = (base[RELATION_COUNT], base[block + FIELD_COUNT] as usize);
    let (kind, most) = (block + KINDS, FIELDS as u64);
    let with = |changes: &[(usize, u64)]| {
        let mut words = base.to_vec();
        for (at, word) in changes {
            words[*at] = *word;
        }
        words
    };
    let full = |fields: u64, mask: u64| {
        let mut words = base.to_vec();
        words[block + FIELD_COUNT] = fields;
        words[block + KINDS..block + MASKS].fill(PLAIN);
        words[block + MASKS] = 0;
        words[block + MASKS + 1] = mask;
        words
    };
    let after = layout::block(1 + relations as usize);
    match rule {
        0 => (with(&[(kind, abort(1))]), with(&[(kind, ABORT)])),
        1 => (with(&[(kind, abort(relations))]), with(&[(kind, abort(relations + 1))])),
        2 => (with(&[(kind, propagation(1))]), with(&[(kind, PROPAGATION)])),
        3 => (with(&[(kind, propagation(relations))]), with(&[(kind, propagation(relations + 1))])),
        4 => (with(&[(kind, PLAIN)]), with(&[(kind, 0)])),
        5 => (with(&[(kind, PLAIN)]), with(&[(kind, PLAIN + 1)])),
        6 => (full(most, 0), full(most + 1, 0)),
        7 => (full(most, mask(&[2, 4, 5, 12])), full(most, mask(&[1, 2, 4, 5, 12]))),
        8 => (full(most, 1 << (most - 1)), full(most, 1 << most)),
        9 => {
            let (last, next) = (1 << (fields - 1), 1 << fields);
            (with(&[(block + MASKS, last)]), with(&[(block + MASKS, next)]))
        }
        10 => (base.to_vec(), with(&[(block + BLOCK_ZERO, 1)])),
        11 if fields < FIELDS => (base.to_vec(), with(&[(kind + fields, PLAIN)])),
        12 if fields < FIELDS => (base.to_vec(), with(&[(block + MASKS - 1, abort(1))])),
        13 if relations < RELATIONS as u64 => (base.to_vec(), with(&[(after, 1)])),
        14 if relations < RELATIONS as u64 => (base.to_vec(), with(&[(layout::SCHEMA - 1, 1)])),
        15 => {
            let most = schema_words(&[(&[PLAIN][..], 1, 0); RELATIONS]);
            let mut more = most.clone();
            more[RELATION_COUNT] = RELATIONS as u64 + 1;
            (most, more)
        }
        16 => (schema_words(&[(&[PLAIN], 0, 0)]), vec![0; layout::SCHEMA]),
        _ => (base.to_vec(), with(&[(RELATION_COUNT, 0)])),
    }
}

pub fn schema_pairs(items: &mut Items, random: &mut Random) {
    for rule in 0..18 {
        for _ in 0..6 {
            let base = random::schema(random);
            let block = layout::block(1 + random.below(base[RELATION_COUNT]) as usize);
            let (limit, beyond) = schema_pair(rule, &base, block);
            items.push(2, SCHEMA_CHECK, vec![limit], vec![]);
            items.push(3, SCHEMA_CHECK, vec![beyond], vec![]);
        }
    }
}

pub fn schemas(items: &mut Items, random: &mut Random) {
    for _ in 0..150 {
        let words = limit_schema(random);
        items.push(2, SCHEMA_CHECK, vec![words], vec![]);
    }
    for round in 0..300 {
        let mut words =
            if random.chance(1, 2) { limit_schema(random) } else { random::schema(random) };
        break_schema(random, &mut words);
        if round % 3 == 2 {
            break_schema(random, &mut words);
        }
        items.push(if round % 3 == 2 { 4 } else { 3 }, SCHEMA_CHECK, vec![words], vec![]);
    }
    let whole = layout::SCHEMA;
    for length in [0, 1, BLOCK, BLOCK + 1, whole - 1, whole + 1, whole + BLOCK, OLD.schema()] {
        for first in [0, 1, 3, 9] {
            let mut words = herd();
            words.resize(length, 0);
            if length > 0 {
                words[RELATION_COUNT] = first;
            }
            items.push(11, SCHEMA_CHECK, vec![words], vec![]);
        }
    }
}
