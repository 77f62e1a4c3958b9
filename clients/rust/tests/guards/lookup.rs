//! Lookups of any relation and label, in tables as they are and with each word damaged in turn.

use crate::damage::WRONG;
use crate::driver::Driver;
use herd::layout::{
    record_word, LABEL_WORD, MOST_RECORDS, MOST_RELATIONS, RELATION_WORD, USED_WORD,
};
use second::random::{self, Random, Shape};

/// The relation and the label of the record of this index; zeros where the table ends before it.
fn name(table: &[u64], index: usize) -> (usize, u64) {
    let word = |at: usize| table.get(record_word(index) + at).copied().unwrap_or(0);
    (word(RELATION_WORD) as usize, word(LABEL_WORD))
}

/// The relation and the label of a record of the table, or others beside them.
pub fn some_name(random: &mut Random, table: &[u64]) -> (usize, u64) {
    let used = table.get(USED_WORD).copied().unwrap_or(0).min(MOST_RECORDS as u64);
    let (relation, label) = name(table, 1 + random.below(used) as usize);
    let any = random.below(MOST_RELATIONS as u64 + 2) as usize;
    let relation = random.pick(&[relation, relation, relation, relation, relation, any]);
    let wrong = random.pick(&WRONG);
    let labels = [label, label, label, label.wrapping_sub(1), label.wrapping_add(1), wrong];
    let label = random.pick(&labels);
    match random.below(12) {
        0 => (usize::MAX, label),
        // A number whose last 48 bits are a label is none.
        1 => (relation, label.wrapping_add(1 << 48)),
        _ => (relation, label),
    }
}

/// Some lookups in a table, which may be damaged.
pub fn lookups(driver: &mut Driver, random: &mut Random, schema: &[u64], table: &[u64]) {
    for _ in 0..4 {
        let (relation, label) = some_name(random, table);
        driver.lookup(schema, table, relation, label);
    }
}

/// Each record of a well-formed table is known by its relation and label.
pub fn each_record(driver: &mut Driver, schema: &[u64], table: &[u64]) {
    for index in 1..=table[USED_WORD] as usize {
        let (relation, label) = name(table, index);
        assert_eq!(driver.lookup(schema, table, relation, label), (0, index as u64));
    }
}

/// Lookups in a small table of this seed, of which one word after the other is damaged.
pub fn each_word_damaged(driver: &mut Driver, seed: u64) {
    let mut random = Random::new(seed);
    let schema = random::schema(&mut random);
    let mut shape = Shape::small(&mut random);
    (shape.used, shape.capacity) = (5, 6);
    let table = random::table(&mut random, &random::decoded(&schema), &shape).words();
    for at in 0..table.len() {
        let beside = [table[at].wrapping_add(1), table[at].wrapping_sub(1)];
        for wrong in WRONG.into_iter().chain(beside) {
            let mut damaged = table.clone();
            damaged[at] = wrong;
            for _ in 0..2 {
                let (relation, label) = some_name(&mut random, &table);
                driver.lookup(&schema, &damaged, relation, label);
            }
        }
    }
}
