//! Fields 9 to 12: marks and walks that eight fields cannot tell.

use super::items::Items;
use super::losers::walks;
use super::sources::{capacity, marks_words};
use super::treatments::{new_field, some_relation, Treatments, NEW_KEYS, TARGET};
use crate::label::Register;
use crate::layout::{abort, propagation, FIELDS, NEW_FIELDS, OLD, PLAIN};
use crate::random::Random;
use crate::vectors::item::{Item, MARKS};

const CONFLICTS: u8 = 111;
const REFERENCES: u8 = 112;

/// How many tables each case has for each field.
const ENOUGH: u64 = 5;
/// How many rounds each key has.
const ROUNDS: u64 = 3;

/// Pushes the marks of the table so far, in which so many records are shown, and of some the walks
/// over them.
fn list(items: &mut Items, made: &mut Treatments, category: u8, shown: usize) {
    let room = made.random.below(2) as usize;
    let words = made.table(room).words();
    let lent = marks_words(made.random, capacity(&words));
    let slices = vec![made.schema.clone(), words.clone(), lent];
    let back = items.push_with(0, Item { category, call: MARKS, slices, words: vec![] });
    assert_eq!(back.results, [shown as u64]);
    if made.random.chance(1, 12) {
        walks(items, category, &made.schema, &words, &back.exits[0]);
    }
}

/// Records that agree on a key with fields above the eighth: all but the oldest go.
/// Records that differ in one of these fields, or have an empty reference there, stay.
fn conflicts(items: &mut Items, random: &mut Random) {
    for key in (0..ROUNDS).flat_map(|_| NEW_KEYS) {
        let (field, kind) = (new_field(key), random.pick(&[PLAIN, propagation(TARGET)]));
        let mut made = Treatments::keyed(random, key, kind);
        let [one, two, _] = made.three(kind);
        let values = made.values(&[(field, one)]);
        made.add(0, &values);
        let targets = made.records.len() - 1;
        let mut other = made.agreeing(key, &values);
        other[field] = two;
        made.add(0, &other);
        list(items, &mut made, CONFLICTS, targets + 2);
        let same = made.agreeing(key, &values);
        made.add(0, &same);
        list(items, &mut made, CONFLICTS, targets + 2);
        let mut made = Treatments::keyed(random, key, abort(TARGET));
        let values = made.values(&[(field, 0)]);
        made.add(0, &values);
        let same = made.agreeing(key, &values);
        made.add(0, &same);
        list(items, &mut made, CONFLICTS, 2);
    }
}

/// A deleted target that a field above the eighth leads to, by abort and by propagation; an unknown
/// one; and a record without a stamp there, which holds no target.
fn references(items: &mut Items, random: &mut Random) {
    for field in NEW_FIELDS.flat_map(|field| vec![field; ENOUGH as usize]) {
        for (kind, shown) in [(abort(TARGET), 2), (propagation(TARGET), 0)] {
            let mut made = Treatments::with(random, &[(field, kind)]);
            let flag = made.odd_flag();
            let target = made.target(flag);
            made.treatment(&[(field, target)]);
            list(items, &mut made, REFERENCES, shown);
        }
        let kind = random.pick(&[abort(TARGET), propagation(TARGET)]);
        let mut made = Treatments::with(random, &[(field, kind)]);
        made.target(0);
        let unknown = made.new_label();
        made.treatment(&[(field, unknown)]);
        list(items, &mut made, REFERENCES, 1);
        let old = random.below(OLD.fields as u64) as usize;
        let mut made = Treatments::with(random, &[(old, abort(TARGET))]);
        let flag = made.odd_flag();
        let target = made.target(flag);
        let label = made.treatment(&[(old, target)]);
        made.record(label).registers[field] = Register::default();
        list(items, &mut made, REFERENCES, 0);
    }
}

/// Deleted treatments that stand, each since the one before it references it by abort in a field
/// above the eighth.
fn hops(items: &mut Items, random: &mut Random) {
    for field in NEW_FIELDS.flat_map(|field| vec![field; ENOUGH as usize]) {
        let relation = some_relation(random);
        let mut kinds = [PLAIN; FIELDS];
        kinds[field] = abort(relation);
        let mut made = Treatments::new(random, relation, &kinds, [0, 0]);
        let (length, mut last) = (2 + made.random.below(3), 0);
        for at in 1..=length {
            let flag = if at == length { made.even_flag() } else { made.odd_flag() };
            let values = made.values(&[(field, last)]);
            last = made.add(flag, &values);
        }
        list(items, &mut made, REFERENCES, length as usize);
    }
}

pub fn new_field_lists(items: &mut Items, random: &mut Random) {
    conflicts(items, random);
    references(items, random);
    hops(items, random);
}
