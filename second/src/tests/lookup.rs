//! Known or not.

use super::{made, marks_of, random_read, stream};
use crate::cases::{herd, record, table as case_table, COW, GROUP, MILKING};
use crate::label::{label_of, Register, LABELS, LARGEST_COUNTER};
use crate::layout::{
    self, CAPACITY, CLOCK, FIRSTS, FLAG, HEADER, LABEL, NEXT, RECORD, RELATION, REPLICA, STAMPS,
    USED, VALUES, ZERO, ZEROS,
};
use crate::random::{self, Random, Shape};
use crate::table::{Record, Table};
use crate::vectors::{self, LOOKUP};
use crate::{lookup, number, table_check, Answer, Refusal};
use std::collections::BTreeMap;

const DAMAGED: Answer<u64> = Err(Refusal::OwnTable);

fn cow(counter: u64) -> Record {
    record(COW, label_of(counter, 1), 0, &[counter, 0])
}

/// Cows 2.1, 4.1 and 6.1 at indices 4, 2 and 3, a group 4.1 at index 1, and room for one record.
fn cows() -> Vec<u64> {
    let group = record(GROUP, label_of(4, 1), 0, &[12]);
    Table { clock: 9, ..made(&herd(), 5, vec![group, cow(4), cow(6), cow(2)]) }.words()
}

/// Where the record of this index begins.
fn begin(index: usize) -> usize {
    layout::record(index - 1)
}

fn ask(words: &[u64], label: u64) -> Answer<u64> {
    lookup(&herd(), words, COW, label)
}

/// The cows with these words changed.
fn with(changes: &[(usize, u64)]) -> Vec<u64> {
    let mut words = cows();
    for (at, word) in changes {
        words[*at] = *word;
    }
    words
}

#[test]
fn stored_labels_are_known() {
    let words = cows();
    for (counter, index) in [(1, 0), (2, 4), (3, 0), (4, 2), (5, 0), (6, 3), (7, 0), (99, 0)] {
        assert_eq!(ask(&words, label_of(counter, 1)), Ok(index));
    }
    assert_eq!(lookup(&herd(), &words, GROUP, label_of(4, 1)), Ok(1));
    assert_eq!(lookup(&herd(), &words, GROUP, label_of(2, 1)), Ok(0));
    assert_eq!(lookup(&herd(), &words, MILKING, label_of(4, 1)), Ok(0));
    for case in 5..=12 {
        let table = case_table(case);
        for (at, record) in table.records.iter().enumerate() {
            let found = lookup(&herd(), &table.words(), record.relation, record.label);
            assert_eq!(found, Ok(at as u64 + 1));
        }
    }
}

#[test]
fn numbers_that_are_no_labels_are_not_known() {
    let (words, label) = (cows(), label_of(4, 1));
    for number in [0, 1, 255, 4 * 256, 6 * 256, label + LABELS, label + COW * LABELS, u64::MAX] {
        assert_eq!(ask(&words, number), Ok(0));
    }
    // The group's label, as a number that begins with its relation.
    assert_eq!(ask(&words, label.wrapping_sub(LABELS)), Ok(0));
    assert_eq!(lookup(&herd(), &words, GROUP, label + LABELS), Ok(0));
}

#[test]
fn records_that_are_not_shown_are_known() {
    let mut incomplete = cow(2);
    incomplete.registers[1] = Register::default();
    let mut bare = cow(3);
    bare.registers.fill(Register::default());
    let deleted = Record { flag: 1, ..cow(4) };
    let lost = record(COW, label_of(5, 1), 0, &[5, label_of(9, 9)]);
    let loser = record(COW, label_of(7, 1), 0, &[6, 0]);
    let records = vec![incomplete, bare, deleted, lost, cow(6), loser];
    let words = made(&herd(), 6, records).words();
    assert_eq!(marks_of(&herd(), &words).1, [0, 0, 0, 0, 1, 0]);
    for index in 1..=6 {
        assert_eq!(ask(&words, label_of(index + 1, 1)), Ok(index));
    }
}

#[test]
fn a_record_that_is_read_is_tested() {
    let (second, above) = (begin(2), label_of(10, 1));
    let damages = [
        (second + NEXT, 5),
        (second + NEXT, 6),
        (second + NEXT, u64::MAX),
        (second + RELATION, GROUP),
        (second + RELATION, 0),
        (second + RELATION, MILKING + 1),
        (second + FLAG, 65_536),
        (second + VALUES + 1, 255),
        (second + VALUES + 1, above),
        (second + VALUES + 2, 1),
        (second + STAMPS, 0),
        (second + STAMPS, 256),
        (second + STAMPS, above),
        (second + STAMPS + 2, 257),
    ];
    for damage in damages {
        let words = with(&[damage]);
        assert_eq!(ask(&words, label_of(2, 1)), Ok(4));
        assert_eq!(ask(&words, label_of(1, 1)), Ok(0));
        assert_eq!(ask(&words, 0), Ok(0));
        for counter in 3..8 {
            assert_eq!(ask(&words, label_of(counter, 1)), DAMAGED);
        }
    }
    for (label, asked) in [(2, 3), (2, 9), (1, 4), (1, 9)] {
        let words = with(&[(second + LABEL, label_of(label, 1))]);
        assert_eq!(ask(&words, label_of(asked, 1)), DAMAGED);
    }
    // Of a label that is none, and of one above the clock.
    for label in [4 * 256, above, LABELS + label_of(4, 1)] {
        for asked in [label - 1, label, label + 1] {
            assert_eq!(ask(&with(&[(second + LABEL, label)]), asked), DAMAGED);
        }
    }
}

#[test]
fn label_none_reads_the_first_record() {
    assert_eq!(ask(&cows(), 0), Ok(0));
    assert_eq!(ask(&with(&[(begin(4) + FLAG, 65_536)]), 0), DAMAGED);
    assert_eq!(ask(&with(&[(begin(4) + LABEL, 0)]), 0), DAMAGED);
    assert_eq!(ask(&with(&[(begin(2) + FLAG, 65_536)]), 0), Ok(0));
}

#[test]
fn chains_that_come_back_are_damaged() {
    for back in [2, 3, 4] {
        let words = with(&[(begin(3) + NEXT, back)]);
        assert_eq!(ask(&words, label_of(6, 1)), Ok(3));
        assert_eq!(ask(&words, label_of(6, 2)), DAMAGED);
        assert_eq!(ask(&words, u64::MAX), DAMAGED);
    }
}

#[test]
fn what_is_not_read_is_not_seen() {
    let other = begin(1);
    let unseen = [
        (other + NEXT, 9),
        (other + RELATION, 7),
        (other + LABEL, 0),
        (other + STAMPS, u64::MAX),
        (begin(5), 1),
        (begin(5) + RECORD - 1, u64::MAX),
        (USED, 5),
        (layout::first(GROUP as usize), 4),
        (layout::first(MILKING as usize), 3),
    ];
    for change in unseen {
        let words = with(&[change]);
        assert_eq!(table_check(&herd(), &words), Err(Refusal::OwnTable));
        for (counter, index) in [(1, 0), (2, 4), (3, 0), (4, 2), (6, 3), (7, 0)] {
            assert_eq!(ask(&words, label_of(counter, 1)), Ok(index));
        }
    }
    // A chain that leaves out a record, or ends before it.
    assert_eq!(ask(&with(&[(begin(4) + NEXT, 3)]), label_of(4, 1)), Ok(0));
    assert_eq!(ask(&with(&[(begin(4) + NEXT, 0)]), label_of(4, 1)), Ok(0));
    assert_eq!(ask(&with(&[(layout::first(COW as usize), 0)]), label_of(4, 1)), Ok(0));
}

#[test]
fn header_comes_before_the_relation() {
    let above = layout::first(MILKING as usize + 1);
    let changes = [
        (REPLICA, 0),
        (REPLICA, 256),
        (CLOCK, LARGEST_COUNTER + 1),
        (USED, 6),
        (USED, u64::MAX),
        (ZERO, 1),
        (ZEROS, 1),
        (HEADER - 1, 1),
        (above, 1),
        (above, 5),
        (ZEROS - 1, 1),
    ];
    let firsts = (FIRSTS..ZEROS).flat_map(|at| [(at, 5), (at, u64::MAX)]);
    for change in changes.into_iter().chain(firsts) {
        let words = with(&[change]);
        for relation in [0, GROUP, COW, MILKING, MILKING + 1, 8, 9, u64::MAX] {
            assert_eq!(lookup(&herd(), &words, relation, label_of(2, 1)), DAMAGED);
        }
    }
}

#[test]
fn order_of_checks() {
    let (good, broken, words) = (herd(), vec![0; layout::SCHEMA], cows());
    let (header, records) = (with(&[(ZERO, 1)]), with(&[(begin(4) + FLAG, 65_536)]));
    let answer = |schema: &[u64], words: &[u64], relation: u64| {
        number(&lookup(schema, words, relation, label_of(2, 1)))
    };
    for relation in [0, MILKING + 1, 9, u64::MAX] {
        assert_eq!(answer(&good, &words, relation), 5);
        assert_eq!(answer(&good, &records, relation), 5);
        assert_eq!(answer(&good, &header, relation), 3);
        for table in [&words, &records, &header] {
            assert_eq!(answer(&broken, table, relation), 2);
            assert_eq!(answer(&broken, &table[1..], relation), 1);
            assert_eq!(answer(&good, &table[..HEADER - 1], relation), 1);
            assert_eq!(answer(&good[1..], table, relation), 1);
        }
    }
    assert_eq!(answer(&good, &records, COW), 3);
    assert_eq!(answer(&broken, &records, COW), 2);
    let beyond = [words, vec![0; layout::table(CAPACITY)]].concat();
    assert_eq!(answer(&broken, &beyond[..layout::table(CAPACITY + 1)], COW), 1);
    assert_eq!(answer(&good, &beyond[..layout::table(CAPACITY)], COW), 0);
}

#[test]
fn capacities() {
    let mut none = vec![0; HEADER];
    assert_eq!(ask(&none, label_of(1, 1)), DAMAGED);
    none[REPLICA] = 1;
    for label in [0, label_of(1, 1), u64::MAX] {
        assert_eq!(ask(&none, label), Ok(0));
    }
    none[layout::first(COW as usize)] = 1;
    assert_eq!(ask(&none, label_of(1, 1)), DAMAGED);
    let most = CAPACITY as u64;
    let words = made(&herd(), CAPACITY, (1..=most).rev().map(cow).collect()).words();
    for counter in [1, 2, most / 2, most] {
        assert_eq!(ask(&words, label_of(counter, 1)), Ok(most + 1 - counter));
    }
    assert_eq!(ask(&words, u64::MAX), Ok(0));
}

/// A search through all records.
fn searched(table: &Table, relation: u64, label: u64) -> u64 {
    let found = table.records.iter().position(|record| record.name() == (relation, label));
    found.map_or(0, |at| at as u64 + 1)
}

#[test]
fn answer_is_that_of_a_search() {
    let mut random = Random::new(14);
    let mut counts = [0, 0];
    for _ in 0..5_000 {
        let schema = random::schema(&mut random);
        let shape = Shape::small(&mut random);
        let table = random::table(&mut random, &random::decoded(&schema), &shape);
        let (words, relations) = (table.words(), schema[layout::RELATION_COUNT]);
        let stored = table.records.iter().map(|record| record.label);
        let mut labels: Vec<u64> = stored.flat_map(|label| [label, label + 1, label - 1]).collect();
        labels.extend([0, 1, label_of(1, 1), LABELS - 1, LABELS, u64::MAX]);
        let far: Vec<u64> = labels.iter().map(|label| label.wrapping_add(LABELS)).collect();
        for label in labels.into_iter().chain(far) {
            for relation in 1..=relations {
                let index = searched(&table, relation, label);
                assert_eq!(lookup(&schema, &words, relation, label), Ok(index));
                counts[(index != 0) as usize] += 1;
            }
        }
    }
    assert!(counts.iter().all(|count| *count > 20_000), "{:?}", counts);
}

/// The indices of the records that a lookup in a well-formed table reads: those of the relation up
/// to the first that is not below the label.
fn read(table: &Table, relation: u64, label: u64) -> Vec<usize> {
    let mut chain: Vec<(u64, usize)> = Vec::new();
    for (at, record) in table.records.iter().enumerate() {
        if record.relation == relation {
            chain.push((record.label, at + 1));
        }
    }
    chain.sort();
    let below = chain.iter().take_while(|(of, _)| *of < label).count();
    chain.iter().take(below + 1).map(|(_, index)| *index).collect()
}

/// One word of a well-formed table is changed. In a record that is not read, or above the used
/// records, it is not seen. Flag, values and stamps of a record that is read, and the header's words
/// of which no record depends, are damaged exactly if the table check says so.
#[test]
fn a_changed_word_is_seen_where_it_is_read() {
    let mut random = Random::new(15);
    let mut counts = BTreeMap::new();
    for _ in 0..100_000 {
        let schema = random::schema(&mut random);
        let shape = Shape { used: 4, capacity: 5, ..Shape::small(&mut random) };
        let mut words = random::table(&mut random, &random::decoded(&schema), &shape).words();
        let table = random_read(&schema, &words);
        let some = &table.records[random.below(table.records.len() as u64) as usize];
        let (relation, label) = (some.relation, some.label - random.below(2));
        let before = lookup(&schema, &words, relation, label);
        let at = random.below(words.len() as u64) as usize;
        let flipped = words[at] ^ (1 << random.below(64));
        words[at] = random.pick(&[0, 1, 257, 65_536, u64::MAX, flipped, words[at].wrapping_add(1)]);
        let damaged = table_check(&schema, &words).is_err();
        let after = lookup(&schema, &words, relation, label);
        let (index, word) = ((at.max(HEADER) - HEADER) / RECORD + 1, at.max(HEADER) - HEADER);
        if at >= HEADER && !read(&table, relation, label).contains(&index) {
            assert_eq!(after, before);
            *counts.entry((false, damaged)).or_insert(0) += 1;
        } else if [REPLICA, ZERO].contains(&at)
            || (ZEROS..HEADER).contains(&at)
            || at >= HEADER && word % RECORD >= FLAG
        {
            assert_eq!(after, if damaged { DAMAGED } else { before });
            *counts.entry((true, damaged)).or_insert(0) += 1;
        }
    }
    assert!(counts.len() == 4 && counts.values().all(|count| *count > 1_000), "{:?}", counts);
}

/// In the vectors yes, no and each refusal have many items.
#[test]
fn vectors_tell_each_answer() {
    let mut counts = BTreeMap::new();
    for (item, back) in vectors::read(stream()).unwrap() {
        if item.call != LOOKUP {
            continue;
        }
        let answer = lookup(&item.slices[0], &item.slices[1], item.words[0], item.words[1]);
        assert_eq!((number(&answer), answer.unwrap_or(0)), (back.answer, back.results[0]));
        *counts.entry((back.answer, back.results[0] != 0)).or_insert(0) += 1;
    }
    for told in [(0, true), (0, false), (1, false), (2, false), (3, false), (5, false)] {
        assert!(counts[&told] >= 30, "{:?}", counts);
    }
    assert_eq!(counts.len(), 6);
}
