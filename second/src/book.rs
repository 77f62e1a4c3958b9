//! The herd book: the barn staff's calls, above the library's and under one fixed schema.

use crate::cases::schema_words;
use crate::edit::{deletion, insertion, is_delta, update};
use crate::label::LABELS;
use crate::layout::{self, abort, propagation, PLAIN, RELATION};
use crate::rules::{holds, rule, Rule};
use crate::shown::{shown, standing};
use crate::table;
use crate::{need, Answer, Refusal};

// The kinds of record: "relations 1 to 6 in that order".
pub const GROUP: u64 = 1;
pub const COW: u64 = 2;
pub const ROBOT: u64 = 3;
pub const MILKING: u64 = 4;
pub const CLEANING: u64 = 5;
pub const TREATMENT: u64 = 6;

pub const KINDS: [u64; 6] = [GROUP, COW, ROBOT, MILKING, CLEANING, TREATMENT];

/// A field that names a record of a kind by abort; by propagation where the rule is dropped.
fn by_abort(by: Rule, kind: u64) -> u64 {
    if rule(by) {
        abort(kind)
    } else {
        propagation(kind)
    }
}

/// A field that names a record of a kind by propagation; by abort where the rule is dropped.
fn by_propagation(by: Rule, kind: u64) -> u64 {
    if rule(by) {
        propagation(kind)
    } else {
        abort(kind)
    }
}

/// The mask of a key, which is none where the rule is dropped.
fn key(by: Rule, mask: u64) -> u64 {
    if rule(by) {
        mask
    } else {
        0
    }
}

/// The keys of a cow: "ear tag and transponder, each a key".
fn cow_keys() -> (u64, u64) {
    let (tag, transponder) = (0b01, 0b10);
    if !rule(Rule::EachIsKey) {
        return (tag | transponder, 0);
    }
    let keys = (key(Rule::EarTagIsKey, tag), key(Rule::TransponderIsKey, transponder));
    if rule(Rule::KeysInOrder) {
        keys
    } else {
        (keys.1, keys.0)
    }
}

/// The fixed schema, its fields and keys in the order of the sentences.
pub fn schema() -> Vec<u64> {
    // "A group and a robot have one field, a number, which is their key."
    let group = [PLAIN];
    let robot = [PLAIN];
    // "A cow has ear tag and transponder, each a key, and may name her group by abort."
    let cow = [PLAIN, PLAIN, by_abort(Rule::GroupByAbort, GROUP)];
    let (tag, transponder) = cow_keys();
    // "A milking names cow by propagation and robot by abort, with grams, tenths of a degree and
    // minute."
    let mut milking = [
        by_propagation(Rule::MilkingCowByPropagation, COW),
        by_abort(Rule::MilkingRobotByAbort, ROBOT),
        PLAIN,
        PLAIN,
        PLAIN,
    ];
    if !rule(Rule::FieldsInOrder) {
        milking.swap(0, 1);
    }
    // "A cleaning names its robot by abort with start and end minute."
    let cleaning = [by_abort(Rule::CleaningRobotByAbort, ROBOT), PLAIN, PLAIN];
    // "A treatment names its cow by propagation, with first and last withheld minute."
    let treatment = [by_propagation(Rule::TreatmentCowByPropagation, COW), PLAIN, PLAIN];
    let mut relations: [(&[u64], u64, u64); 6] = [
        (&group, key(Rule::GroupNumberIsKey, 1), 0),
        (&cow, tag, transponder),
        (&robot, key(Rule::RobotNumberIsKey, 1), 0),
        (&milking, 0, 0),
        (&cleaning, 0, 0),
        (&treatment, 0, 0),
    ];
    if !rule(Rule::KindsInOrder) {
        relations.swap(4, 5);
    }
    schema_words(&relations)
}

/// Enters a record of a kind, with a value for each of its fields; gives its label.
pub fn enter(own: &mut [u64], delta: &mut [u64], kind: u64, values: &[u64]) -> Answer<u64> {
    insertion(&schema(), own, delta, kind, values)
}

/// "with 6 also for a record of another kind": where the library's 6 stands, after 1 and 3.
fn need_kind(own: &[u64], delta: &[u64], kind: u64, index: u64) -> Answer<()> {
    need(is_delta(delta) && table::is_index(own, index), Refusal::LengthOrIndex)?;
    if rule(Rule::KindAfterTable) {
        table::table_check(&schema(), own)?;
    }
    let stored = own[layout::record(index as usize - 1) + RELATION];
    need(holds(Rule::OfTheKind, stored == kind), Refusal::NotShown)
}

/// The library's edit of a record, of this kind alone.
fn edit_of(
    own: &mut [u64],
    delta: &mut [u64],
    kind: u64,
    index: u64,
    edit: impl Fn(&mut [u64], &mut [u64]) -> Answer<()>,
) -> Answer<()> {
    let of_the_kind = need_kind(own, delta, kind, index);
    if of_the_kind.is_err() && !rule(Rule::KindBeforeField) {
        edit(&mut own.to_vec(), &mut delta.to_vec())?;
    }
    of_the_kind?;
    edit(own, delta)
}

/// Changes a field of a record of a kind; fields count from 1.
pub fn change(
    own: &mut [u64],
    delta: &mut [u64],
    kind: u64,
    index: u64,
    field: u64,
    value: u64,
) -> Answer<()> {
    edit_of(own, delta, kind, index, |own, delta| {
        update(&schema(), own, delta, index, field, value)
    })
}

/// Strikes off a record of a kind.
pub fn strike(own: &mut [u64], delta: &mut [u64], kind: u64, index: u64) -> Answer<()> {
    edit_of(own, delta, kind, index, |own, delta| deletion(&schema(), own, delta, index))
}

/// The index of the shown milking with this label, 0 if none is shown.
pub fn find_milking(table: &[u64], label: u64) -> Answer<u64> {
    let (schema, table) = table::read_checked(&schema(), table, true)?;
    let label = if rule(Rule::FoundWholeLabel) { label } else { label % LABELS };
    let found = if rule(Rule::FoundNotOnlyStanding) { shown } else { standing };
    let members = found(&schema, &table);
    let found = table.records.iter().zip(members).position(|(record, member)| {
        holds(Rule::FoundMilking, record.relation == MILKING)
            && holds(Rule::FoundLabel, record.label == label)
            && holds(Rule::FoundShown, member)
    });
    Ok(found.map_or(0, |at| at as u64 + 1))
}
