//! Schemas and tables with a rule broken, and wrong lengths.

use super::sources::capacity;
use crate::label::{counter, label_of, LARGEST_COUNTER};
use crate::layout::{
    self, abort, propagation, ABORT, BLOCK, BLOCK_ZERO, CLOCK, FIELDS, FIELD_COUNT, FIRSTS, FLAG,
    HEADER, KEYS, KINDS, LABEL, MASKS, NEXT, PLAIN, PROPAGATION, RECORD, RELATION, RELATIONS,
    RELATION_COUNT, REPLICA, STAMPS, USED, VALUES, ZERO, ZEROS,
};
use crate::random::Random;

const MOST_RELATIONS: u64 = RELATIONS as u64;
const MOST_FIELDS: u64 = FIELDS as u64;

/// Breaks one rule of a schema.
pub fn break_schema(random: &mut Random, words: &mut [u64]) {
    let relations = words[RELATION_COUNT].clamp(1, MOST_RELATIONS);
    let block = layout::block(1 + random.below(relations) as usize);
    let fields = words[block + FIELD_COUNT].clamp(1, MOST_FIELDS);
    let kind = block + KINDS + random.below(fields) as usize;
    let mask = block + MASKS + random.below(KEYS as u64) as usize;
    match random.below(14) {
        0 => {
            words[RELATION_COUNT] =
                random.pick(&[0, MOST_RELATIONS + 1, MOST_RELATIONS + 2, u64::MAX])
        }
        1 => words[block + FIELD_COUNT] = random.pick(&[0, MOST_FIELDS + 1, u64::MAX]),
        2 => {
            words[kind] = random.pick(&[0, PLAIN + 1, ABORT - 1, ABORT, PROPAGATION, 48, u64::MAX])
        }
        3 => words[kind] = abort(relations + 1),
        4 => words[kind] = propagation(relations + 1),
        5 if fields < MOST_FIELDS => words[block + MASKS - 1] = PLAIN,
        6 if fields < MOST_FIELDS => words[block + KINDS + fields as usize] = abort(1),
        7 => words[mask] = 1 << fields,
        8 => words[mask] |= 1 << 63,
        9 => {
            words[block + FIELD_COUNT] = MOST_FIELDS;
            words[block + KINDS..block + MASKS].fill(PLAIN);
            let five = [layout::mask(&[1, 2, 3, 4, 5]), layout::mask(&[8, 9, 10, 11, 12])];
            let more = [layout::mask(&[2, 4, 5, 9, 12]), (1 << MOST_FIELDS) - 1];
            words[mask] = random.pick(&[five, more].concat());
        }
        10 => words[block + BLOCK_ZERO] = random.pick(&[1, u64::MAX]),
        11 if relations < MOST_RELATIONS => {
            let at = layout::block(1 + relations as usize) + random.below(BLOCK as u64) as usize;
            words[at] = 1;
        }
        12 if relations < MOST_RELATIONS => {
            words[layout::SCHEMA - 1 - random.below(BLOCK as u64) as usize] = 1;
        }
        13 => words[RELATION_COUNT] = (relations + 1) % (MOST_RELATIONS + 1),
        _ => words[block + FIELD_COUNT] = 0,
    }
}

/// Where the words of a random used record begin, and its number of fields.
pub fn some_record(random: &mut Random, schema: &[u64], words: &[u64]) -> (usize, usize) {
    let used = (words[USED].max(1) as usize).min(capacity(words).max(1));
    let begin = layout::record(random.below(used as u64) as usize);
    let relation = words[begin + RELATION].clamp(1, MOST_RELATIONS) as usize;
    (begin, schema[layout::block(relation) + FIELD_COUNT].clamp(1, MOST_FIELDS) as usize)
}

/// A field of this record that holds a reference, or none.
pub fn reference_field(
    random: &mut Random,
    schema: &[u64],
    words: &[u64],
    begin: usize,
) -> Option<usize> {
    let relation = words[begin + RELATION].clamp(1, MOST_RELATIONS) as usize;
    let kinds = &schema[layout::block(relation) + KINDS..][..FIELDS];
    let fields: Vec<usize> = (0..FIELDS).filter(|field| kinds[*field] > PLAIN).collect();
    if fields.is_empty() {
        None
    } else {
        Some(random.pick(&fields))
    }
}

/// Breaks one rule of a table with at least one record, other than those of chains.
pub fn break_table(random: &mut Random, schema: &[u64], words: &mut [u64]) {
    let (begin, fields) = some_record(random, schema, words);
    let field = random.below(fields as u64) as usize;
    let clock = words[CLOCK];
    let last = words.len() - 1;
    match random.below(26) {
        0 => words[REPLICA] = random.pick(&[0, 256, u64::MAX]),
        1 => words[CLOCK] = random.pick(&[LARGEST_COUNTER + 1, u64::MAX]),
        2 => words[CLOCK] = counter(words[begin + LABEL]).saturating_sub(1),
        3 => words[CLOCK] = counter(words[begin + STAMPS + field]).saturating_sub(1),
        4 => words[USED] += 1,
        5 => words[USED] -= 1,
        6 => words[USED] = random.pick(&[capacity(words) as u64 + 1, u64::MAX]),
        7 => words[ZERO] = 1,
        8 => words[ZEROS + random.below((HEADER - ZEROS) as u64) as usize] = 1,
        9 => {
            let beyond = [0, MOST_RELATIONS + 1, schema[RELATION_COUNT] + 1, u64::MAX];
            words[begin + RELATION] = random.pick(&beyond);
        }
        10 => {
            let relations = schema[RELATION_COUNT].max(1);
            words[begin + RELATION] = words[begin + RELATION] % relations + 1;
        }
        11 => words[begin + LABEL] = random.pick(&[0, 5, 256, 1 << 48, u64::MAX]),
        12 => words[begin + LABEL] = label_of(clock.saturating_add(1).min(LARGEST_COUNTER), 1),
        13 => words[begin + FLAG] = random.pick(&[65_536, 65_537, u64::MAX]),
        14 => words[begin + STAMPS + field] = random.pick(&[1, 256, 1 << 48, u64::MAX]),
        15 => {
            words[begin + STAMPS + field] =
                label_of(clock.saturating_add(1).min(LARGEST_COUNTER), 1)
        }
        16 => {
            words[begin + STAMPS + field] = 0;
            words[begin + VALUES + field] = words[begin + VALUES + field].max(1);
        }
        17 if fields < FIELDS => words[begin + VALUES + fields] = 1,
        18 if fields < FIELDS => words[begin + STAMPS - 1] = 1,
        19 if fields < FIELDS => words[begin + STAMPS + fields] = 257,
        20 if fields < FIELDS => words[begin + RECORD - 1] = 257,
        21 | 22 => match reference_field(random, schema, words, begin) {
            Some(at) => words[begin + VALUES + at] = random.pick(&[1, 255, 256, 1 << 48, u64::MAX]),
            None => words[ZERO] = u64::MAX,
        },
        23 => match reference_field(random, schema, words, begin) {
            Some(at) if clock < LARGEST_COUNTER => {
                words[begin + VALUES + at] = label_of(clock + 1, 1);
            }
            _ => words[ZEROS] = u64::MAX,
        },
        24 if capacity(words) as u64 > words[USED] => words[last] = 1,
        25 if capacity(words) as u64 > words[USED] => {
            let after = layout::record(words[USED] as usize);
            words[after + random.below(RECORD as u64) as usize] = 1;
        }
        _ => words[HEADER - 1] = 1,
    }
}

/// Breaks the chains of a table with at least one record.
pub fn break_chain(random: &mut Random, schema: &[u64], words: &mut [u64]) {
    let (begin, _) = some_record(random, schema, words);
    let used = words[USED].max(1);
    let first = FIRSTS + random.below(MOST_RELATIONS) as usize;
    match random.below(10) {
        0 => words[begin + NEXT] = (begin - HEADER) as u64 / RECORD as u64 + 1,
        1 => words[begin + NEXT] = 1 + random.below(used),
        2 => words[begin + NEXT] = 0,
        3 => words[begin + NEXT] = random.pick(&[used + 1, capacity(words) as u64 + 1, u64::MAX]),
        4 => words[first] = random.pick(&[used + 1, capacity(words) as u64 + 1, u64::MAX]),
        5 => words[first] = 1 + random.below(used),
        6 => words[first] = 0,
        7 => words.swap(layout::first(1), layout::first(2)),
        8 => {
            let relation = words[begin + RELATION].clamp(1, MOST_RELATIONS) as usize;
            let first_index = words[layout::first(relation)].clamp(1, used) as usize;
            words[begin + LABEL] = words[layout::record(first_index - 1) + LABEL];
        }
        _ => {
            let from = layout::record(random.below(used) as usize);
            words.swap(from + LABEL, begin + LABEL);
        }
    }
}

/// Takes or adds a word or a record; the length may stay right.
pub fn wrong_length(random: &mut Random, words: &mut Vec<u64>) {
    let length = words.len();
    match random.below(7) {
        0 => words.push(0),
        1 => words.truncate(length - 1),
        2 => words.resize(length + RECORD, 0),
        3 if length > HEADER => words.truncate(length - RECORD),
        4 => words.truncate(HEADER - 1),
        5 => words.clear(),
        _ => words.resize(length + 8, 0),
    }
}
