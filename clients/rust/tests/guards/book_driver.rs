//! Each call of the herd book beside the library's own under its schema, compared: the answer, what
//! comes back, and every word.

use crate::driver::{Answers, Driver};
use herd::book::{self, SCHEMA};
use herd::layout::{record_word, HEADER_WORDS, LABEL_WORD, RECORD_WORDS, RELATION_WORD};
use herd::raw::{self, book as calls};

/// The calls, and the numbers that each may answer, as `include/herdbook.h` tells them.
pub const ANSWERS: Answers = &[
    ("enter_group", &[0, 1, 3, 9, 11, 12]),
    ("change_group", &[0, 1, 3, 6, 7, 9, 12]),
    ("strike_group", &[0, 1, 3, 6, 10]),
    ("enter_cow", &[0, 1, 3, 7, 8, 9, 11, 12, 13]),
    ("change_cow", &[0, 1, 3, 6, 7, 8, 9, 12, 13]),
    ("strike_cow", &[0, 1, 3, 6, 13]),
    ("enter_robot", &[0, 1, 3, 9, 11, 12]),
    ("change_robot", &[0, 1, 3, 6, 7, 9, 12]),
    ("strike_robot", &[0, 1, 3, 6, 10]),
    ("enter_milking", &[0, 1, 3, 7, 8, 11, 12, 13]),
    ("change_milking", &[0, 1, 3, 6, 7, 8, 12, 13]),
    ("strike_milking", &[0, 1, 3, 6, 13]),
    ("enter_cleaning", &[0, 1, 3, 7, 8, 11, 12, 13]),
    ("change_cleaning", &[0, 1, 3, 6, 7, 8, 12, 13]),
    ("strike_cleaning", &[0, 1, 3, 6, 13]),
    ("enter_treatment", &[0, 1, 3, 7, 8, 11, 12]),
    ("change_treatment", &[0, 1, 3, 6, 7, 8, 12]),
    ("strike_treatment", &[0, 1, 3, 6]),
    ("find_milking", &[0, 1, 3]),
];

type Enter = fn(&mut [u64], &mut [u64], &[u64], &mut u64) -> u64;
type Change = fn(&mut [u64], &mut [u64], usize, usize, u64) -> u64;
type Strike = fn(&mut [u64], &mut [u64], usize) -> u64;

/// The three calls of a kind of record, with their names.
pub struct Kind {
    pub relation: usize,
    pub enter: (&'static str, Enter),
    pub change: (&'static str, Change),
    pub strike: (&'static str, Strike),
}

/// By relation.
pub const KINDS: [Kind; book::TREATMENT] = [
    Kind {
        relation: book::GROUP,
        enter: ("enter_group", |own, delta, v, label| calls::enter_group(own, delta, v[0], label)),
        change: ("change_group", calls::change_group),
        strike: ("strike_group", calls::strike_group),
    },
    Kind {
        relation: book::COW,
        enter: ("enter_cow", |own, delta, v, label| {
            calls::enter_cow(own, delta, v[0], v[1], v[2], label)
        }),
        change: ("change_cow", calls::change_cow),
        strike: ("strike_cow", calls::strike_cow),
    },
    Kind {
        relation: book::ROBOT,
        enter: ("enter_robot", |own, delta, v, label| calls::enter_robot(own, delta, v[0], label)),
        change: ("change_robot", calls::change_robot),
        strike: ("strike_robot", calls::strike_robot),
    },
    Kind {
        relation: book::MILKING,
        enter: ("enter_milking", |own, delta, v, label| {
            calls::enter_milking(own, delta, v[0], v[1], v[2], v[3], v[4], label)
        }),
        change: ("change_milking", calls::change_milking),
        strike: ("strike_milking", calls::strike_milking),
    },
    Kind {
        relation: book::CLEANING,
        enter: ("enter_cleaning", |own, delta, v, label| {
            calls::enter_cleaning(own, delta, v[0], v[1], v[2], label)
        }),
        change: ("change_cleaning", calls::change_cleaning),
        strike: ("strike_cleaning", calls::strike_cleaning),
    },
    Kind {
        relation: book::TREATMENT,
        enter: ("enter_treatment", |own, delta, v, label| {
            calls::enter_treatment(own, delta, v[0], v[1], v[2], label)
        }),
        change: ("change_treatment", calls::change_treatment),
        strike: ("strike_treatment", calls::strike_treatment),
    },
];

impl Driver {
    /// An edit of the herd book, beside the library's on copies of the same words: the answer, the
    /// label and every word.
    fn book_edit(
        &mut self,
        function: &'static str,
        own: &mut [u64],
        delta: &mut [u64],
        call: impl FnOnce(&mut [u64], &mut [u64], &mut u64) -> u64,
        library: impl FnOnce(&mut [u64], &mut [u64], &mut u64) -> u64,
    ) -> u64 {
        let (mut lent, mut lent_delta) = (self.lend(own), self.lend(delta));
        let mut lent_label = self.lend_word();
        let label = &mut lent_label.part_mut()[0];
        let mut expected_label = *label;
        let answer = call(lent.part_mut(), lent_delta.part_mut(), label);
        let before = (own.to_vec(), delta.to_vec());
        let expected = library(own, delta, &mut expected_label);
        assert_eq!(lent.back(), own);
        assert_eq!(lent_delta.back(), delta);
        assert_eq!(lent_label.back(), [expected_label]);
        assert!(answer == 0 || before == (own.to_vec(), delta.to_vec()));
        self.count(function, answer, expected)
    }

    pub fn enter(
        &mut self,
        kind: &Kind,
        own: &mut [u64],
        delta: &mut [u64],
        values: &[u64],
    ) -> u64 {
        let (name, call) = kind.enter;
        self.book_edit(
            name,
            own,
            delta,
            |own, delta, label| call(own, delta, values, label),
            |own, delta, label| {
                raw::insert(SCHEMA.words(), own, delta, kind.relation, values, label)
            },
        )
    }

    pub fn change(
        &mut self,
        kind: &Kind,
        own: &mut [u64],
        delta: &mut [u64],
        index: usize,
        field: usize,
        value: u64,
    ) -> u64 {
        let (name, call) = kind.change;
        self.book_edit(
            name,
            own,
            delta,
            |own, delta, _| call(own, delta, index, field, value),
            |own, delta, _| {
                of_kind(kind, own, delta, index, |own, delta| {
                    raw::update(SCHEMA.words(), own, delta, index, field, value)
                })
            },
        )
    }

    pub fn strike(&mut self, kind: &Kind, own: &mut [u64], delta: &mut [u64], index: usize) -> u64 {
        let (name, call) = kind.strike;
        self.book_edit(
            name,
            own,
            delta,
            |own, delta, _| call(own, delta, index),
            |own, delta, _| {
                of_kind(kind, own, delta, index, |own, delta| {
                    raw::delete(SCHEMA.words(), own, delta, index)
                })
            },
        )
    }

    /// The search for a milking, beside one among the marks. The answer and the index.
    pub fn find(&mut self, table: &[u64], label: u64) -> (u64, u64) {
        let (lent, mut index) = (self.lend(table), self.lend_word());
        let answer = calls::find_milking(lent.part(), label, &mut index.part_mut()[0]);
        let mut marks = vec![0; table.len().saturating_sub(HEADER_WORDS) / RECORD_WORDS];
        let expected = raw::marks(SCHEMA.words(), table, &mut marks, &mut 0);
        let found = (1..=marks.len()).find(|index| {
            let record = &table[record_word(*index)..];
            marks[index - 1] == 1
                && record[RELATION_WORD] == book::MILKING as u64
                && record[LABEL_WORD] == label
        });
        assert_eq!(lent.back(), table);
        let index = index.back()[0];
        assert_eq!(index, found.map_or(0, |index| index as u64));
        self.found += (index != 0) as u64;
        (self.count("find_milking", answer, expected), index)
    }
}

/// What an edit of the herd book is to answer: the library's answer, and 6 for a record of another
/// kind once the lengths, the index and the table are good. Then no word changes.
fn of_kind(
    kind: &Kind,
    own: &mut [u64],
    delta: &mut [u64],
    index: usize,
    library: impl Fn(&mut [u64], &mut [u64]) -> u64,
) -> u64 {
    let answer = library(&mut own.to_vec(), &mut delta.to_vec());
    if answer == 1 || answer == 3 || own[record_word(index) + RELATION_WORD] == kind.relation as u64
    {
        return library(own, delta);
    }
    6
}
