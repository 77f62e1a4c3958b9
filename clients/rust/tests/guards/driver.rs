//! Each call on the library and on `second`, compared: the answer, what comes back, and every word.

use crate::lent::{Lending, Lent};
use herd::layout::{record_word, FLAG_WORD, HEAD_WORDS, LABEL_WORD, RELATION_WORD, USED_WORD};
use herd::{raw, Compared};
use second::random::Random;
use second::vectors::given;
use second::{number, Answer};
use std::collections::BTreeMap;
use std::fmt::Display;

/// Functions, and the numbers that each may answer.
pub type Answers = &'static [(&'static str, &'static [u64])];

/// The functions of the library.
pub const ANSWERS: Answers = &[
    ("schema_check", &[0, 1, 2]),
    ("table_check", &[0, 1, 2, 3]),
    ("start", &[0, 1, 5]),
    ("merge", &[0, 1, 2, 3, 4, 11]),
    ("compare", &[0, 1, 2, 3, 4]),
    ("lookup", &[0, 1, 2, 3, 5]),
    ("widen", &[0, 1, 2, 3]),
    ("narrow", &[0, 1, 2, 3, 14]),
    ("insert", &[0, 1, 2, 3, 5, 7, 8, 9, 11, 12, 13]),
    ("update", &[0, 1, 2, 3, 6, 7, 8, 9, 12, 13]),
    ("delete", &[0, 1, 2, 3, 6, 10, 13]),
    ("marks", &[0, 1, 2, 3]),
    ("walk", &[0, 1, 2, 3]),
    ("values", &[0, 1]),
];

/// What a lookup that is done says, of a well-formed table and of one with damage that it does not
/// read.
pub const LOOKUPS: [&str; 4] = ["known", "unknown", "known_beside_damage", "unknown_beside_damage"];

pub struct Driver {
    lending: Lending,
    random: Random,
    /// How often each function gave each answer.
    pub counts: BTreeMap<(&'static str, u64), u64>,
    /// How often a merge that was done changed so many records.
    pub changed: BTreeMap<u64, u64>,
    /// How often a comparison gave each verdict.
    pub verdicts: BTreeMap<u64, u64>,
    /// How often a lookup gave each of [`LOOKUPS`].
    pub lookups: BTreeMap<&'static str, u64>,
    /// How often a milking was found.
    pub found: u64,
}

impl Driver {
    pub fn new(lending: Lending, seed: u64) -> Driver {
        Driver {
            lending,
            random: Random::new(seed),
            counts: BTreeMap::new(),
            changed: BTreeMap::new(),
            verdicts: BTreeMap::new(),
            lookups: BTreeMap::new(),
            found: 0,
        }
    }

    /// The number of calls so far.
    pub fn calls(&self) -> u64 {
        self.counts.values().sum()
    }

    /// How often an answer was given, by any function.
    pub fn answered(&self, answer: u64) -> u64 {
        self.counts.iter().filter(|((_, told), _)| *told == answer).map(|(_, count)| count).sum()
    }

    /// How often a function gave an answer.
    pub fn given(&self, function: &'static str, answer: u64) -> u64 {
        self.counts.get(&(function, answer)).copied().unwrap_or(0)
    }

    /// A line for each function with its counts by answer.
    pub fn report(&self, all: Answers) -> String {
        let mut text = format!("{} calls\n", self.calls());
        for (function, answers) in all {
            text.push_str(&format!("{function:<16}"));
            for answer in *answers {
                text.push_str(&format!(" {answer}:{}", self.given(function, *answer)));
            }
            text.push('\n');
        }
        text + &counted("changed", &self.changed)
            + &counted("verdicts", &self.verdicts)
            + &counted("lookups", &self.lookups)
    }

    #[track_caller]
    pub fn count(&mut self, function: &'static str, answer: u64, expected: u64) -> u64 {
        assert_eq!(answer, expected, "answer of {function}");
        *self.counts.entry((function, answer)).or_insert(0) += 1;
        answer
    }

    fn word(&mut self) -> u64 {
        let other = self.random.next();
        self.random.pick(&[0, 1, 257, 513, u64::MAX, other])
    }

    fn guard<T>(&mut self, mut element: impl FnMut(u64) -> T) -> Vec<T> {
        if self.lending == Lending::Exact {
            return Vec::new();
        }
        (0..1 + self.random.below(8)).map(|_| element(self.word())).collect()
    }

    pub fn lend(&mut self, words: &[u64]) -> Lent<u64> {
        let guards = (self.guard(|word| word), self.guard(|word| word));
        Lent::new(words, guards)
    }

    fn lend_bytes(&mut self, bytes: &[u8]) -> Lent<u8> {
        let guards = (self.guard(|word| word as u8), self.guard(|word| word as u8));
        Lent::new(bytes, guards)
    }

    /// A word for a result, with old contents.
    pub fn lend_word(&mut self) -> Lent<u64> {
        let old = self.word();
        self.lend(&[old])
    }

    /// A buffer with any contents.
    pub fn any_words(&mut self, count: usize) -> Vec<u64> {
        if self.random.chance(1, 2) {
            return vec![0; count];
        }
        (0..count).map(|_| self.word()).collect()
    }

    /// A delta buffer with any contents.
    pub fn any_delta(&mut self) -> Vec<u64> {
        self.any_words(herd::DELTA_WORDS)
    }

    /// Marks with any contents.
    pub fn any_bytes(&mut self, count: usize) -> Vec<u8> {
        (0..count).map(|_| self.word() as u8).collect()
    }

    pub fn schema_check(&mut self, schema: &[u64]) -> u64 {
        let lent = self.lend(schema);
        let answer = raw::schema_check(lent.part());
        assert_eq!(lent.back(), schema);
        self.count("schema_check", answer, number(&second::schema_check(schema)))
    }

    pub fn table_check(&mut self, schema: &[u64], table: &[u64]) -> u64 {
        let (lent_schema, lent) = (self.lend(schema), self.lend(table));
        let answer = raw::table_check(lent_schema.part(), lent.part());
        assert_eq!(lent_schema.back(), schema);
        assert_eq!(lent.back(), table);
        self.count("table_check", answer, number(&second::table_check(schema, table)))
    }

    pub fn start(&mut self, table: &mut [u64], replica: u64) -> u64 {
        let mut lent = self.lend(table);
        let answer = raw::start(lent.part_mut(), replica);
        let expected = second::start(table, replica);
        assert_eq!(lent.back(), table);
        self.count("start", answer, number(&expected))
    }

    /// The answer and the number of records changed.
    pub fn merge(&mut self, schema: &[u64], own: &mut [u64], other: &[u64]) -> (u64, u64) {
        let (lent_schema, mut lent, lent_other) =
            (self.lend(schema), self.lend(own), self.lend(other));
        let mut changed = self.lend_word();
        let answer = raw::merge(
            lent_schema.part(),
            lent.part_mut(),
            lent_other.part(),
            &mut changed.part_mut()[0],
        );
        let before = own.to_vec();
        let expected = second::merge(schema, own, other);
        assert_eq!(lent_schema.back(), schema);
        assert_eq!(lent.back(), own);
        assert_eq!(lent_other.back(), other);
        let changed = changed.back()[0];
        assert_eq!(changed, value_of(&expected.map(|changed| changed as u64)));
        if answer == 0 {
            assert_eq!(changed, differing(&before, own));
            *self.changed.entry(changed).or_insert(0) += 1;
        }
        (self.count("merge", answer, number(&expected)), changed)
    }

    /// The answer and the verdict.
    pub fn compare(
        &mut self,
        schema: &[u64],
        first: &[u64],
        second: &[u64],
    ) -> (u64, Option<Compared>) {
        let (lent_schema, lent, lent_second) =
            (self.lend(schema), self.lend(first), self.lend(second));
        let mut verdict = self.lend_word();
        let answer = raw::compare(
            lent_schema.part(),
            lent.part(),
            lent_second.part(),
            &mut verdict.part_mut()[0],
        );
        let expected = second::compare(schema, first, second);
        assert_eq!(lent_schema.back(), schema);
        assert_eq!(lent.back(), first);
        assert_eq!(lent_second.back(), second);
        let verdict = verdict.back()[0];
        assert_eq!(verdict, second::compare::told(&expected));
        if answer == 0 {
            assert_eq!(verdict, by_merges(schema, first, second).number());
            *self.verdicts.entry(verdict).or_insert(0) += 1;
        }
        (self.count("compare", answer, number(&expected)), Compared::from_number(verdict))
    }

    /// A well-formed table compared with itself: it is lent once for both.
    pub fn compare_itself(&mut self, schema: &[u64], table: &[u64]) {
        let (lent_schema, lent, mut verdict) =
            (self.lend(schema), self.lend(table), self.lend_word());
        let answer =
            raw::compare(lent_schema.part(), lent.part(), lent.part(), &mut verdict.part_mut()[0]);
        assert_eq!(lent_schema.back(), schema);
        assert_eq!(lent.back(), table);
        assert_eq!(verdict.back(), [Compared::Alike.number()]);
        self.count("compare", answer, 0);
    }

    /// The answer and the index.
    pub fn lookup(
        &mut self,
        schema: &[u64],
        table: &[u64],
        relation: usize,
        label: u64,
    ) -> (u64, u64) {
        let (lent_schema, lent, mut index) =
            (self.lend(schema), self.lend(table), self.lend_word());
        let answer =
            raw::lookup(lent_schema.part(), lent.part(), relation, label, &mut index.part_mut()[0]);
        let expected = second::lookup(schema, table, relation as u64, label);
        assert_eq!(lent_schema.back(), schema);
        assert_eq!(lent.back(), table);
        let index = index.back()[0];
        assert_eq!(index, value_of(&expected));
        let well_formed = raw::table_check(schema, table) == 0;
        if well_formed {
            assert_eq!((answer, index), searched(schema, table, relation, label));
        }
        if answer == 0 {
            let told = LOOKUPS[(index == 0) as usize + 2 * !well_formed as usize];
            *self.lookups.entry(told).or_insert(0) += 1;
        }
        (self.count("lookup", answer, number(&expected)), index)
    }

    /// The answer and the label.
    pub fn insert(
        &mut self,
        schema: &[u64],
        own: &mut [u64],
        delta: &mut [u64],
        relation: usize,
        values: &[u64],
    ) -> (u64, u64) {
        let (lent_schema, mut lent, mut lent_delta) =
            (self.lend(schema), self.lend(own), self.lend(delta));
        let (lent_values, mut label) = (self.lend(values), self.lend_word());
        let answer = raw::insert(
            lent_schema.part(),
            lent.part_mut(),
            lent_delta.part_mut(),
            relation,
            lent_values.part(),
            &mut label.part_mut()[0],
        );
        let expected = second::insertion(schema, own, delta, relation as u64, values);
        assert_eq!(lent_schema.back(), schema);
        assert_eq!(lent.back(), own);
        assert_eq!(lent_delta.back(), delta);
        assert_eq!(lent_values.back(), values);
        let label = label.back()[0];
        assert_eq!(label, value_of(&expected));
        (self.count("insert", answer, number(&expected)), label)
    }

    pub fn update(
        &mut self,
        schema: &[u64],
        own: &mut [u64],
        delta: &mut [u64],
        index: usize,
        field: usize,
        value: u64,
    ) -> u64 {
        let (lent_schema, mut lent, mut lent_delta) =
            (self.lend(schema), self.lend(own), self.lend(delta));
        let answer = raw::update(
            lent_schema.part(),
            lent.part_mut(),
            lent_delta.part_mut(),
            index,
            field,
            value,
        );
        let expected = second::update(schema, own, delta, index as u64, field as u64, value);
        assert_eq!(lent_schema.back(), schema);
        assert_eq!(lent.back(), own);
        assert_eq!(lent_delta.back(), delta);
        self.count("update", answer, number(&expected))
    }

    pub fn delete(
        &mut self,
        schema: &[u64],
        own: &mut [u64],
        delta: &mut [u64],
        index: usize,
    ) -> u64 {
        let (lent_schema, mut lent, mut lent_delta) =
            (self.lend(schema), self.lend(own), self.lend(delta));
        let answer = raw::delete(lent_schema.part(), lent.part_mut(), lent_delta.part_mut(), index);
        let expected = second::deletion(schema, own, delta, index as u64);
        assert_eq!(lent_schema.back(), schema);
        assert_eq!(lent.back(), own);
        assert_eq!(lent_delta.back(), delta);
        self.count("delete", answer, number(&expected))
    }

    /// The answer and the shown count.
    pub fn marks(&mut self, schema: &[u64], table: &[u64], marks: &mut [u8]) -> (u64, u64) {
        let (lent_schema, lent, mut lent_marks) =
            (self.lend(schema), self.lend(table), self.lend_bytes(marks));
        let mut shown = self.lend_word();
        let answer = raw::marks(
            lent_schema.part(),
            lent.part(),
            lent_marks.part_mut(),
            &mut shown.part_mut()[0],
        );
        let expected = second::marks(schema, table, marks);
        assert_eq!(lent_schema.back(), schema);
        assert_eq!(lent.back(), table);
        assert_eq!(lent_marks.back(), marks);
        let shown = shown.back()[0];
        assert_eq!(shown, value_of(&expected));
        (self.count("marks", answer, number(&expected)), shown)
    }

    /// The answer and the index given.
    pub fn walk(
        &mut self,
        schema: &[u64],
        table: &[u64],
        marks: &[u8],
        place: &mut u64,
    ) -> (u64, u64) {
        let (lent_schema, lent, lent_marks) =
            (self.lend(schema), self.lend(table), self.lend_bytes(marks));
        let (mut lent_place, mut index) = (self.lend(&[*place]), self.lend_word());
        let answer = raw::walk(
            lent_schema.part(),
            lent.part(),
            lent_marks.part(),
            &mut lent_place.part_mut()[0],
            &mut index.part_mut()[0],
        );
        let expected = second::walk(schema, table, marks, place);
        assert_eq!(lent_schema.back(), schema);
        assert_eq!(lent.back(), table);
        assert_eq!(lent_marks.back(), marks);
        assert_eq!(lent_place.back(), [*place]);
        let index = index.back()[0];
        assert_eq!(index, given(&expected));
        (self.count("walk", answer, number(&expected)), index)
    }

    /// The answer and the word at which the values begin.
    pub fn values(&mut self, table: &[u64], index: usize) -> (u64, u64) {
        let (lent, mut first) = (self.lend(table), self.lend_word());
        let answer = raw::values(lent.part(), index, &mut first.part_mut()[0]);
        let expected = second::values(table, index as u64);
        assert_eq!(lent.back(), table);
        let first = first.back()[0];
        if expected.is_empty() {
            assert_eq!(first, 0);
        } else {
            assert_eq!(&table[first as usize..first as usize + herd::FIELDS], expected);
            assert_eq!(first as usize, record_word(index) + HEAD_WORDS);
        }
        (self.count("values", answer, expected.is_empty() as u64), first)
    }
}

/// A line with the count of each value; none without counts.
fn counted<K: Display>(name: &str, counts: &BTreeMap<K, u64>) -> String {
    if counts.is_empty() {
        return String::new();
    }
    let each: Vec<String> =
        counts.iter().map(|(value, count)| format!("{value}:{count}")).collect();
    format!("{name:<16} {}\n", each.join(" "))
}

/// The answer and the index of a lookup in a well-formed table, by a search through all records.
fn searched(schema: &[u64], table: &[u64], relation: usize, label: u64) -> (u64, u64) {
    if !(1..=schema[0]).contains(&(relation as u64)) {
        return (5, 0);
    }
    let is_wanted = |index: &u64| {
        let record = &table[record_word(*index as usize)..];
        record[RELATION_WORD] == relation as u64 && record[LABEL_WORD] == label
    };
    (0, (1..=table[USED_WORD]).find(is_wanted).unwrap_or(0))
}

/// The verdict on two well-formed tables by merges: a table contains another if taking that in is
/// accepted and changes no word of it.
fn by_merges(schema: &[u64], first: &[u64], second: &[u64]) -> Compared {
    let contains = |own: &[u64], other: &[u64]| {
        let mut merged = own.to_vec();
        raw::merge(schema, &mut merged, other, &mut 0) == 0 && merged == own
    };
    match (contains(first, second), contains(second, first)) {
        (true, true) => Compared::Alike,
        (false, true) => Compared::FirstBehind,
        (true, false) => Compared::SecondBehind,
        (false, false) => Compared::Neither,
    }
}

fn value_of(answer: &Answer<u64>) -> u64 {
    answer.unwrap_or(0)
}

/// The records of a table of which the flag, a value or a stamp differs from before, and those that
/// were added. A record keeps its index.
fn differing(before: &[u64], after: &[u64]) -> u64 {
    let differs = |index: &usize| {
        let cell = record_word(*index) + FLAG_WORD..record_word(index + 1);
        before[cell.clone()] != after[cell]
    };
    let old = (1..=before[USED_WORD] as usize).filter(differs).count();
    old as u64 + after[USED_WORD] - before[USED_WORD]
}
