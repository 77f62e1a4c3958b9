//! The calls of the herd book on random tables under its schema, damaged ones among them.

use crate::book_driver::{Kind, KINDS};
use crate::damage::{resize, spoil_table, WRONG};
use crate::driver::Driver;
use herd::book::{self, SCHEMA};
use herd::layout::{record_word, table_words, DELTA_WORDS, LABEL_WORD, USED_WORD};
use second::cases::record;
use second::label::{label_of, LARGEST_COUNTER, LARGEST_FLAG};
use second::random::{self, Random, Shape};
use second::table::Table;
use second::vectors::{random_edit, Edit};

/// A well-formed table made directly; some have a clock at the end.
fn direct(random: &mut Random, used: usize, capacity: usize) -> Vec<u64> {
    let mut shape = Shape::small(random);
    (shape.used, shape.capacity) = (used, capacity);
    shape.spread = shape.spread.max(2 * used as u64);
    shape.base = shape.base.min(LARGEST_COUNTER - shape.spread);
    let mut table = random::table(random, &random::decoded(SCHEMA.words()), &shape);
    if random.chance(1, 6) {
        table.clock = table.clock.max(LARGEST_COUNTER - random.below(2));
    }
    table.words()
}

/// A table in which cows, milkings and cleanings hold groups and robots that are struck off; many of
/// their flags are at the end.
fn held(random: &mut Random) -> Vec<u64> {
    let label = |counter| label_of(counter, 1);
    let mut records = Vec::new();
    for counter in 1..=2 {
        let mut flag = || random.pick(&[0, 1, LARGEST_FLAG, LARGEST_FLAG, LARGEST_FLAG]);
        records.push(record(book::GROUP as u64, label(counter), flag(), &[counter]));
        records.push(record(book::ROBOT as u64, label(10 + counter), flag(), &[counter]));
    }
    for counter in 20..24 {
        let group = label(1 + random.below(2));
        let values = [counter, counter, group];
        records.push(record(book::COW as u64, label(counter), 0, &values));
    }
    for counter in 30..36 {
        let robot = label(11 + random.below(2));
        let cow = label(20 + random.below(4));
        let (kind, values): (_, &[u64]) = match counter % 3 {
            0 => (book::MILKING, &[cow, robot, 9000, 385, 7]),
            1 => (book::CLEANING, &[robot, 7, 19]),
            _ => (book::TREATMENT, &[cow, 7, 7000]),
        };
        records.push(record(kind as u64, label(counter), 0, values));
    }
    random.shuffle(&mut records);
    let capacity = records.len() + random.below(3) as usize;
    Table { capacity, replica: 1 + random.below(3), clock: 40, records }.words()
}

/// A kind: mostly that of the edit's record, sometimes any.
fn kind_of(random: &mut Random, relation: u64) -> &'static Kind {
    let own = (1..=KINDS.len() as u64).contains(&relation) && !random.chance(1, 6);
    let at = if own { relation as usize - 1 } else { random.below(KINDS.len() as u64) as usize };
    &KINDS[at]
}

fn edit(driver: &mut Driver, random: &mut Random, edit: Edit, own: &mut [u64], delta: &mut [u64]) {
    let relation = |index: u64| {
        let at = (index as usize).checked_sub(1).map(|before| table_words(before) + 1);
        at.and_then(|at| own.get(at)).copied().unwrap_or(0)
    };
    match edit {
        Edit::Insertion { relation, mut values } => {
            let kind = kind_of(random, relation);
            values.resize(SCHEMA.fields(kind.relation), 0);
            if random.chance(1, 8) {
                values[0] = random.pick(&WRONG);
            }
            driver.enter(kind, own, delta, &values);
        }
        Edit::Update { index, field, value } => {
            let kind = kind_of(random, relation(index));
            let value = if random.chance(1, 8) { random.pick(&WRONG) } else { value };
            driver.change(kind, own, delta, index as usize, field as usize, value);
        }
        Edit::Deletion { index } => {
            let kind = kind_of(random, relation(index));
            driver.strike(kind, own, delta, index as usize);
        }
    }
}

/// The label of a record of the table, of any kind, or another number.
fn some_label(random: &mut Random, table: &[u64]) -> u64 {
    let used = table.get(USED_WORD).copied().unwrap_or(0);
    let index = 1 + random.below(used.max(1)) as usize;
    let label = table.get(record_word(index) + LABEL_WORD).copied().unwrap_or(1);
    let other = random.pick(&WRONG);
    random.pick(&[label, label, label, label.wrapping_add(1), label.wrapping_add(1 << 48), other])
}

/// A call on this table as it is, or on a damaged copy of it.
fn step(driver: &mut Driver, random: &mut Random, table: &mut [u64]) {
    let chosen = random_edit(random, SCHEMA.words(), table);
    if random.chance(1, 4) {
        let mut damaged = table.to_vec();
        let mut delta = vec![random.next(); DELTA_WORDS];
        match random.below(5) {
            0 => resize(random, &mut damaged),
            1 => resize(random, &mut delta),
            _ => spoil_table(random, &mut damaged),
        }
        driver.find(&damaged, some_label(random, &damaged));
        edit(driver, random, chosen, &mut damaged, &mut delta);
        return;
    }
    for _ in 0..2 {
        driver.find(table, some_label(random, table));
    }
    let mut delta = driver.any_delta();
    edit(driver, random, chosen, table, &mut delta);
    assert_eq!(herd::raw::table_check(SCHEMA.words(), table), 0);
}

/// A table of this seed, and so many steps on it.
pub fn barn(driver: &mut Driver, seed: u64, steps: usize) {
    let mut random = Random::new(seed);
    let used = random.below(20) as usize;
    let capacity = used + random.pick(&[0, 1, 2, 12]);
    let mut table =
        if seed % 3 == 0 { held(&mut random) } else { direct(&mut random, used, capacity) };
    for _ in 0..steps {
        step(driver, &mut random, &mut table);
    }
}

/// A table of this capacity, full but for one record.
pub fn large_barn(driver: &mut Driver, seed: u64, capacity: usize) {
    let mut random = Random::new(seed);
    let mut table = direct(&mut random, capacity - 1, capacity);
    for _ in 0..40 {
        step(driver, &mut random, &mut table);
    }
}
