//! Which targets an edit redoes: each word of the condition, on both sides.

use super::items::Items;
use crate::cases::schema_words;
use crate::label::{counter, label_of, Register, LARGEST_FLAG};
use crate::layout::{self, abort, propagation, FLAG, PLAIN, RELATIONS, RELATION_COUNT};
use crate::random::{self, Random};
use crate::schema::Kind;
use crate::table::{Record, Table};
use crate::vectors::edit::Edit;
use crate::vectors::item::TABLE_CHECK;

const SUPPORT: u8 = 33;
const KINDS: u8 = 34;
const OLD_TARGETS: u8 = 35;
const DELETED_TARGETS: u8 = 36;
const FOUND_BY_UPDATE: u8 = 37;
const FOUND_BY_DELETION: u8 = 38;
const TWICE: u8 = 39;
const ABOVE: u8 = 40;

/// How many tables decide a rule.
const ENOUGH: u64 = 24;
/// How many have it the other way.
const OTHERS: u64 = 10;

/// A table in the making. Each relation has two abort references to relation 1, a propagation
/// reference to it and a plain value, in some order.
struct Barn<'a> {
    random: &'a mut Random,
    schema: Vec<u64>,
    records: Vec<Record>,
    last: u64,
}

/// What the edited, the supporting and the target records are; in a table of one relation all are
/// of relation 1.
const TARGET: u64 = 1;

impl Barn<'_> {
    fn new(random: &mut Random) -> Barn<'_> {
        let relations = random.pick(&[1, 3]);
        let blocks: Vec<Vec<u64>> = (0..relations)
            .map(|_| {
                let mut kinds = vec![abort(TARGET), abort(TARGET), propagation(TARGET), PLAIN];
                random.shuffle(&mut kinds);
                kinds
            })
            .collect();
        let blocks: Vec<(&[u64], u64, u64)> =
            blocks.iter().map(|kinds| (kinds.as_slice(), 0, 0)).collect();
        let schema = schema_words(&blocks);
        let last = random.below(1_000);
        Barn { random, schema, records: Vec::new(), last }
    }

    fn kinds(&self, relation: u64) -> Vec<Kind> {
        random::decoded(&self.schema).relation(relation).map_or(vec![], |of| of.kinds.clone())
    }

    /// The relation of edited or of supporting records.
    fn relation(&self, number: u64) -> u64 {
        number.min(self.schema[RELATION_COUNT])
    }

    /// The values of a record with these references, and a plain value that is no label.
    fn values(&mut self, relation: u64, aborts: [u64; 2], propagates: u64) -> Vec<u64> {
        let (mut next, plain) = (aborts.into_iter(), self.random.below(256));
        self.kinds(relation)
            .iter()
            .map(|kind| match kind {
                Kind::Plain => plain,
                Kind::Abort(_) => next.next().unwrap_or(0),
                Kind::Propagation(_) => propagates,
            })
            .collect()
    }

    /// Adds a complete record; gives its label.
    fn add(&mut self, relation: u64, flag: u64, aborts: [u64; 2], propagates: u64) -> u64 {
        let relation = self.relation(relation);
        self.last += 1 + self.random.below(3);
        let label = label_of(self.last, 1 + self.random.below(3));
        let values = self.values(relation, aborts, propagates);
        self.records.push(crate::cases::record(relation, label, flag, &values));
        label
    }

    /// A record of relation 1 without references.
    fn target(&mut self, flag: u64) -> u64 {
        self.add(TARGET, flag, [0, 0], 0)
    }

    /// A record that references this one by one kind.
    fn reference(&mut self, relation: u64, flag: u64, to: u64, by_abort: bool) -> u64 {
        match (by_abort, self.random.chance(1, 2)) {
            (true, true) => self.add(relation, flag, [to, 0], 0),
            (true, false) => self.add(relation, flag, [0, to], 0),
            (false, _) => self.add(relation, flag, [0, 0], to),
        }
    }

    fn record(&mut self, label: u64) -> &mut Record {
        let at = self.records.iter().position(|record| record.label == label);
        &mut self.records[at.unwrap_or(0)]
    }

    /// Takes a stamp from the plain value or from an empty reference.
    fn make_incomplete(&mut self, label: u64) {
        let relation = self.record(label).relation;
        let kinds = self.kinds(relation);
        let values = crate::shown::values_of(self.record(label));
        let columns: Vec<usize> = (0..kinds.len())
            .filter(|column| kinds[*column] == Kind::Plain || values[*column] == 0)
            .collect();
        let column = self.random.pick(&columns);
        self.record(label).registers[column] = Register::default();
    }

    fn odd_flag(&mut self) -> u64 {
        self.random.pick(&[1, 1, 3, 65_533, 65_535])
    }

    fn even_flag(&mut self) -> u64 {
        self.random.pick(&[0, 0, 0, 2, 65_534])
    }

    /// The column of a reference of this record to this target, counted from 1.
    fn field(&mut self, label: u64, to: u64) -> u64 {
        let values = crate::shown::values_of(self.record(label));
        values.iter().position(|value| *value == to).unwrap_or(0) as u64 + 1
    }

    /// An update of this record's reference to a target: it gets this value.
    fn update(&mut self, label: u64, to: u64, value: u64) -> Edit {
        let field = self.field(label, to);
        Edit::Update { index: label, field, value }
    }

    /// A few records that have nothing to do with the others, then the words of the table; records
    /// stand in any order.
    fn words(&mut self) -> Vec<u64> {
        for _ in 0..self.random.below(3) {
            let flag = self.random.below(3);
            let label = self.target(flag);
            if self.random.chance(1, 3) {
                self.make_incomplete(label);
            }
        }
        let least = random::least_clock(&random::decoded(&self.schema), &self.records);
        self.random.shuffle(&mut self.records);
        Table {
            capacity: self.records.len() + 1,
            replica: 1 + self.random.below(3),
            clock: least + self.random.below(3),
            records: self.records.clone(),
        }
        .words()
    }

    /// Pushes an edit, whose index is a label so far. Exactly these records are redone; where one
    /// of their flags is at its end, the answer is 13.
    fn push(&mut self, items: &mut Items, category: u8, edit: Edit, redone: &[u64]) {
        let words = self.words();
        let index = |label: u64| {
            self.records.iter().position(|record| record.label == label).unwrap_or(0) as u64 + 1
        };
        let edit = match edit {
            Edit::Update { index: label, field, value } => {
                Edit::Update { index: index(label), field, value }
            }
            Edit::Deletion { index: label } => Edit::Deletion { index: index(label) },
            insertion => insertion,
        };
        let flag =
            |words: &[u64], label: u64| words[layout::record(index(label) as usize - 1) + FLAG];
        let (mut own, mut delta) = (words.clone(), vec![0; layout::DELTA]);
        let (answer, _) = edit.run(&self.schema, &mut own, &mut delta);
        if redone.iter().any(|label| flag(&words, *label) == LARGEST_FLAG) {
            assert_eq!(answer, 13);
        } else {
            assert_eq!(answer, 0);
            let is_redone =
                |record: &&Record| record.flag % 2 == 1 && flag(&own, record.label) % 2 == 0;
            let mut found: Vec<u64> =
                self.records.iter().filter(is_redone).map(|record| record.label).collect();
            let mut wanted = redone.to_vec();
            found.sort();
            wanted.sort();
            assert_eq!(found, wanted);
        }
        items.push_edit(category, &self.schema, &words, vec![0; layout::DELTA], edit);
    }
}

const EDITED: u64 = 2;
const SUPPORTING: u64 = 3;

/// Deletes the record, or updates its reference to the target: to none or to another record.
fn leave(barn: &mut Barn, by_update: bool, label: u64, target: u64) -> Edit {
    if !by_update {
        return Edit::Deletion { index: label };
    }
    let value = if barn.random.chance(1, 2) { barn.target(0) } else { 0 };
    barn.update(label, target, value)
}

/// What supports the target that an edit leaves.
#[derive(Clone, Copy, PartialEq)]
enum Support {
    CompleteEven,
    Incomplete,
    Odd,
    None,
    OfAnother,
    /// Complete and even, of a target that is even.
    OfEven,
}

fn supports(items: &mut Items, random: &mut Random) {
    let counts = [
        (Support::CompleteEven, OTHERS),
        (Support::Incomplete, ENOUGH),
        (Support::Odd, ENOUGH),
        (Support::None, OTHERS),
        (Support::OfAnother, OTHERS),
        (Support::OfEven, ENOUGH),
    ];
    for (support, count) in counts {
        for round in 0..2 * count {
            let mut barn = Barn::new(random);
            let flag = if support == Support::OfEven { barn.even_flag() } else { barn.odd_flag() };
            let even = barn.even_flag();
            let target = barn.target(flag);
            let edited = barn.reference(EDITED, even, target, true);
            if support != Support::None {
                let of = if support == Support::OfAnother { barn.target(0) } else { target };
                let (odd, by_abort) = (support == Support::Odd, barn.random.chance(1, 2));
                let label = barn.reference(SUPPORTING, odd as u64, of, by_abort);
                if support == Support::Incomplete {
                    barn.make_incomplete(label);
                }
            }
            let edit = leave(&mut barn, round % 2 == 0, edited, target);
            let redone: &[u64] = if support == Support::CompleteEven { &[target] } else { &[] };
            barn.push(items, SUPPORT, edit, redone);
        }
    }
}

/// The support is by abort alone, or by propagation alone.
fn kinds(items: &mut Items, random: &mut Random) {
    for round in 0..4 * ENOUGH {
        let mut barn = Barn::new(random);
        let (odd, even) = (barn.odd_flag(), barn.even_flag());
        let target = barn.target(odd);
        let edited = barn.reference(EDITED, even, target, true);
        for _ in 0..1 + barn.random.below(2) {
            barn.reference(SUPPORTING, 0, target, round % 4 < 2);
        }
        let edit = leave(&mut barn, round % 2 == 0, edited, target);
        barn.push(items, KINDS, edit, &[target]);
    }
}

/// The target that an edit leaves is odd and supported by abort; the edited record references it by
/// propagation, or by abort.
fn targets(items: &mut Items, random: &mut Random) {
    for (category, by_update) in [(OLD_TARGETS, true), (DELETED_TARGETS, false)] {
        for round in 0..ENOUGH + OTHERS {
            let mut barn = Barn::new(random);
            let (odd, even, by_abort) = (barn.odd_flag(), barn.even_flag(), round >= ENOUGH);
            let target = barn.target(odd);
            barn.reference(SUPPORTING, 0, target, true);
            let edited = barn.reference(EDITED, even, target, by_abort);
            let edit = leave(&mut barn, by_update, edited, target);
            let redone: &[u64] = if by_abort { &[target] } else { &[] };
            barn.push(items, category, edit, redone);
        }
    }
}

/// The old target is referenced by the new one alone, which the update redoes; or the new one is
/// even, or another record supports the old one too.
fn found_by_update(items: &mut Items, random: &mut Random) {
    for round in 0..ENOUGH + 2 * OTHERS {
        let mut barn = Barn::new(random);
        let (odd, even, by_abort) = (barn.odd_flag(), barn.even_flag(), barn.random.chance(1, 2));
        let old = barn.target(odd);
        let edited = barn.reference(EDITED, even, old, true);
        let even_new = ENOUGH <= round && round < ENOUGH + OTHERS;
        let new_flag = if even_new { 0 } else { barn.random.pick(&[1, 3]) };
        let new = barn.reference(TARGET, new_flag, old, by_abort);
        barn.reference(SUPPORTING, 0, new, true);
        let mut redone = if even_new { vec![] } else { vec![new] };
        if round >= ENOUGH {
            redone.push(old);
        }
        if round >= ENOUGH + OTHERS {
            let by_abort = barn.random.chance(1, 2);
            barn.reference(SUPPORTING, 0, old, by_abort);
        }
        let edit = barn.update(edited, old, new);
        barn.push(items, FOUND_BY_UPDATE, edit, &redone);
    }
}

/// The deleted record has two targets, of which the deletion redoes one; this one alone references
/// the other. Or it is even, or another record supports the other too.
fn found_by_deletion(items: &mut Items, random: &mut Random) {
    for round in 0..ENOUGH + 3 * OTHERS {
        let mut barn = Barn::new(random);
        let (odd, even, by_abort) = (barn.odd_flag(), barn.even_flag(), barn.random.chance(1, 2));
        let other = barn.target(odd);
        let even_one = ENOUGH + OTHERS <= round && round < ENOUGH + 2 * OTHERS;
        let flag = if even_one { 0 } else { barn.random.pick(&[1, 3]) };
        let one = barn.reference(TARGET, flag, other, by_abort);
        let by_abort = barn.random.chance(1, 2);
        barn.reference(SUPPORTING, 0, one, by_abort);
        let second_first = ENOUGH <= round && barn.random.chance(3, 4);
        let targets = if second_first { [other, one] } else { [one, other] };
        let edited = barn.add(EDITED, even, targets, 0);
        let mut redone = if even_one { vec![] } else { vec![one] };
        if round >= ENOUGH + OTHERS {
            redone.push(other);
        }
        if round >= ENOUGH + 2 * OTHERS {
            let by_abort = barn.random.chance(1, 2);
            barn.reference(SUPPORTING, 0, other, by_abort);
        }
        barn.push(items, FOUND_BY_DELETION, Edit::Deletion { index: edited }, &redone);
    }
}

/// A record references an odd target twice, and is inserted, deleted, or updated in one field.
fn twice(items: &mut Items, random: &mut Random) {
    for round in 0..3 * ENOUGH {
        let mut barn = Barn::new(random);
        let (odd, even) = (barn.random.pick(&[1, 3, 65_531, 65_533]), barn.even_flag());
        let target = barn.target(odd);
        barn.reference(SUPPORTING, 0, target, true);
        let propagates = if round % 3 != 1 && barn.random.chance(1, 2) { target } else { 0 };
        let edit = match round % 3 {
            0 => {
                let relation = barn.relation(EDITED);
                let values = barn.values(relation, [target, target], propagates);
                Edit::Insertion { relation, values }
            }
            part => {
                let edited = barn.add(EDITED, even, [target, target], propagates);
                leave(&mut barn, part == 1, edited, target)
            }
        };
        barn.push(items, TWICE, edit, &[target]);
    }
}

/// A record in the chain of a relation above R, and the same words where that relation is.
fn above(items: &mut Items, random: &mut Random) {
    for round in 0..ENOUGH {
        let most = RELATIONS as u64;
        let relations = 1 + random.below(most - 1);
        let kinds = [PLAIN, abort(1)];
        let mut blocks: Vec<(&[u64], u64, u64)> = vec![(&kinds, 1, 0); relations as usize];
        let narrow = schema_words(&blocks);
        let relation = relations + 1 + random.below(most - relations);
        blocks.resize(relation as usize, (&[PLAIN], 0, 0));
        let wide = schema_words(&blocks);
        let mut records = vec![crate::cases::record(1, label_of(1 + round, 1), 0, &[40, 0])];
        for at in 0..1 + random.below(3) {
            let (label, flag) = (label_of(1 + round + at, 2), random.below(3));
            records.push(Record { relation, label, flag, registers: vec![] });
        }
        random.shuffle(&mut records);
        let clock = records.iter().map(|record| counter(record.label)).max().unwrap_or(0);
        let words = Table { capacity: 5, replica: 1, clock, records }.words();
        assert_eq!(items.push(ABOVE, TABLE_CHECK, vec![narrow, words.clone()], vec![]), 3);
        assert_eq!(items.push(ABOVE, TABLE_CHECK, vec![wide, words], vec![]), 0);
    }
}

pub fn redoing(items: &mut Items, random: &mut Random) {
    supports(items, random);
    kinds(items, random);
    targets(items, random);
    found_by_update(items, random);
    found_by_deletion(items, random);
    twice(items, random);
    above(items, random);
}
