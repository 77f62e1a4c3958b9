//! Schemas and tables turned between the old form and the new one, over buffers with any contents: as
//! they are, damaged, and with other lengths.

use crate::damage::{resize_by, spoil, WRONG};
use crate::driver::Driver;
use herd::layout::{self, HEADER_WORDS, RECORD_WORDS};
use herd::{old, raw, SCHEMA_WORDS};
use second::layout::{NEW, OLD};
use second::random::{self, Random, Shape};
use second::{number, Answer};

/// A schema and a table.
type Pair = [Vec<u64>; 2];

/// A call that turns a schema and a table into two others.
type Turning<T> = fn(&[u64], &[u64], &mut [u64], &mut [u64]) -> T;

/// The N of so many words of a table with records of so many.
fn capacity(table: &[u64], record: usize) -> usize {
    table.len().saturating_sub(HEADER_WORDS) / record
}

impl Driver {
    fn turn(
        &mut self,
        function: &'static str,
        (library, second): (Turning<u64>, Turning<Answer<()>>),
        from: &Pair,
        into: &mut Pair,
    ) -> u64 {
        let [schema, table] = from.each_ref().map(|words| self.lend(words));
        let [mut into_schema, mut into_table] = into.each_ref().map(|words| self.lend(words));
        let answer =
            library(schema.part(), table.part(), into_schema.part_mut(), into_table.part_mut());
        let [expected_schema, expected_table] = into;
        let expected = second(&from[0], &from[1], expected_schema, expected_table);
        assert_eq!([schema.back(), table.back()], *from);
        assert_eq!([into_schema.back(), into_table.back()], *into);
        self.count(function, answer, number(&expected))
    }

    fn widen(&mut self, old: &Pair, into: &mut Pair) -> u64 {
        self.turn("widen", (raw::widen, second::widen), old, into)
    }

    fn narrow(&mut self, new: &Pair, into: &mut Pair) -> u64 {
        self.turn("narrow", (raw::narrow, second::narrow), new, into)
    }

    /// Buffers of the old form with any contents, for the N of a table.
    fn old_buffers(&mut self, table: &[u64]) -> Pair {
        let words = old::table_words(capacity(table, RECORD_WORDS));
        [self.any_words(old::SCHEMA_WORDS), self.any_words(words)]
    }

    /// Buffers of the new form with any contents, for the N of an old table.
    fn new_buffers(&mut self, table: &[u64]) -> Pair {
        let words = layout::table_words(capacity(table, old::RECORD_WORDS));
        [self.any_words(SCHEMA_WORDS), self.any_words(words)]
    }
}

/// Gives one of four slices another length, in some cases that of the next N.
fn other_length(random: &mut Random, old: &mut Pair, new: &mut Pair) {
    match random.below(4) {
        0 => resize_by(random, &mut old[0], old::BLOCK_WORDS),
        1 => resize_by(random, &mut new[0], layout::BLOCK_WORDS),
        2 => resize_by(random, &mut old[1], old::RECORD_WORDS),
        _ => resize_by(random, &mut new[1], RECORD_WORDS),
    }
}

/// Turns a schema and a table back; what comes of them is turned again, and then with damage.
pub fn turnings(driver: &mut Driver, random: &mut Random, schema: &[u64], table: &[u64]) {
    let new = [schema.to_vec(), table.to_vec()];
    let mut old = driver.old_buffers(table);
    if driver.narrow(&new, &mut old) != 0 {
        return;
    }
    let mut again = driver.new_buffers(&old[1]);
    assert_eq!(driver.widen(&old, &mut again), 0);
    assert_eq!(again, new);
    let mut buffers = driver.new_buffers(&old[1]);
    match random.below(4) {
        0 => spoil(random, &mut old[0]),
        1 | 2 => spoil(random, &mut old[1]),
        _ => other_length(random, &mut old, &mut buffers),
    }
    driver.widen(&old, &mut buffers);
}

/// Turns a schema and a table back that may be damaged, in some cases with another length.
pub fn narrow_damaged(driver: &mut Driver, random: &mut Random, schema: &[u64], table: &[u64]) {
    let mut new = [schema.to_vec(), table.to_vec()];
    let mut old = driver.old_buffers(table);
    if random.chance(1, 3) {
        other_length(random, &mut old, &mut new);
    }
    driver.narrow(&new, &mut old);
}

/// A schema of at most eight fields and a small table, in the old form and in the new one, as the
/// second implementation writes them.
fn small(random: &mut Random) -> (Pair, Pair) {
    let blocks = random::blocks(random, old::FIELDS);
    let [old, new] = [OLD, NEW].map(|form| random::encoded(form, &blocks));
    let mut shape = Shape::small(random);
    (shape.used, shape.capacity) = (5, 6);
    let table = random::table(random, &random::decoded(&new), &shape);
    ([old, table.words_in(OLD)], [new, table.words()])
}

/// A schema and a table of which one word after the other is damaged.
fn each_damage(of: &Pair, mut turn: impl FnMut(&Pair)) {
    for part in 0..of.len() {
        for at in 0..of[part].len() {
            let word = of[part][at];
            for wrong in WRONG.into_iter().chain([word.wrapping_add(1), word.wrapping_sub(1)]) {
                let mut damaged = of.clone();
                damaged[part][at] = wrong;
                turn(&damaged);
            }
        }
    }
}

/// A small schema and table of this seed: turned both ways, and then with each word damaged.
pub fn each_word_turned(driver: &mut Driver, seed: u64) {
    let (old, new) = small(&mut Random::new(seed));
    let (mut turned, mut back) = (driver.new_buffers(&old[1]), driver.old_buffers(&new[1]));
    assert_eq!((driver.widen(&old, &mut turned), &turned), (0, &new));
    assert_eq!((driver.narrow(&new, &mut back), &back), (0, &old));
    each_damage(&old, |damaged| {
        let mut buffers = driver.new_buffers(&damaged[1]);
        driver.widen(damaged, &mut buffers);
    });
    each_damage(&new, |damaged| {
        let mut buffers = driver.old_buffers(&damaged[1]);
        driver.narrow(damaged, &mut buffers);
    });
}
