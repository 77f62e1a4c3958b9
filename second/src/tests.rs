//! The tests of the second implementation, and what they share.

mod book;
mod cases;
mod changes;
mod compare;
mod edges;
mod edits;
mod fleets;
mod forms;
mod items;
mod list;
mod lookup;
mod losers;
mod refusals;
mod rules;
mod shapes;
mod shown;
mod tables;

use crate::layout;
use crate::marks;
use crate::random;
use crate::table::{Record, Table};
use crate::vectors;
use std::sync::OnceLock;

fn marks_of(schema: &[u64], words: &[u64]) -> (u64, Vec<u8>) {
    let mut found = vec![7; crate::table::capacity_of(words.len()).unwrap()];
    let count = marks(schema, words, &mut found).unwrap();
    (count, found)
}

/// A table of `capacity` with these records, replica 1 and the least clock.
fn made(schema: &[u64], capacity: usize, records: Vec<Record>) -> Table {
    let clock = random::least_clock(&random::decoded(schema), &records);
    Table { capacity, replica: 1, clock, records }
}

fn delta() -> Vec<u64> {
    vec![0; layout::DELTA]
}

fn random_read(schema: &[u64], words: &[u64]) -> Table {
    crate::table::read(&random::decoded(schema), words).unwrap()
}

fn stream() -> &'static [u8] {
    static STREAM: OnceLock<Vec<u8>> = OnceLock::new();
    STREAM.get_or_init(|| vectors::write(&vectors::vectors(1)))
}
