//! Fields 9 to 12: edits that eight fields cannot tell.

use super::items::Items;
use super::sources::{delta_words, edit_item};
use super::treatments::{index, new_field, some_relation, Treatments, NEW_KEYS, TARGET};
use crate::label::LARGEST_FLAG;
use crate::layout::{
    self, abort, propagation, DELTA_CAPACITY, FIELDS, FLAG, NEW_FIELDS, OLD, PLAIN, USED,
};
use crate::random::Random;
use crate::table::Table;
use crate::vectors::edit::Edit;
use crate::vectors::item::Outcome;

const CONFLICTS: u8 = 113;
const REFERENCES: u8 = 114;
const REDOING: u8 = 115;
const THIRTEEN: u8 = 116;
const FIELD_NUMBERS: u8 = 117;

/// How many tables each case has for each field.
const ENOUGH: u64 = 5;
/// How many rounds each key has.
const ROUNDS: u64 = 3;

/// Pushes an edit of the table so far, from which this answer must come back; gives the table and
/// all that came back. The index of an edit is a label so far.
fn push(
    items: &mut Items,
    category: u8,
    answer: u64,
    edit: Edit,
    made: &mut Treatments,
) -> (Table, Outcome) {
    let (table, delta) = (made.table(1), delta_words(made.random));
    let item = edit_item(category, &made.schema, &table.words(), delta, by_index(edit, &table));
    (table, items.push_with(answer, item))
}

/// The edit with the index of the record instead of its label.
fn by_index(edit: Edit, table: &Table) -> Edit {
    match edit {
        Edit::Insertion { .. } => edit,
        Edit::Update { index: label, field, value } => {
            Edit::Update { index: index(table, label), field, value }
        }
        Edit::Deletion { index: label } => Edit::Deletion { index: index(table, label) },
    }
}

fn insertion(made: &Treatments, values: &[u64]) -> Edit {
    Edit::Insertion { relation: made.relation, values: values.to_vec() }
}

/// An update of a field, counted from 0.
fn update(label: u64, field: usize, value: u64) -> Edit {
    Edit::Update { index: label, field: field as u64 + 1, value }
}

fn some_kind(random: &mut Random) -> u64 {
    random.pick(&[abort(TARGET), propagation(TARGET)])
}

/// Insertions and updates that agree with a standing record on a key with fields above the eighth,
/// and that differ from it in one of them.
fn conflicts(items: &mut Items, random: &mut Random) {
    for key in (0..ROUNDS).flat_map(|_| NEW_KEYS) {
        let (field, kind) = (new_field(key), random.pick(&[PLAIN, abort(TARGET)]));
        let mut made = Treatments::keyed(random, key, kind);
        let [one, two, three] = made.three(kind);
        let values = made.values(&[(field, one)]);
        made.add(0, &values);
        let same = made.agreeing(key, &values);
        let mut other = same.clone();
        other[field] = two;
        push(items, CONFLICTS, 9, insertion(&made, &same), &mut made);
        push(items, CONFLICTS, 0, insertion(&made, &other), &mut made);
        let label = made.add(0, &other);
        push(items, CONFLICTS, 9, update(label, field, one), &mut made);
        push(items, CONFLICTS, 0, update(label, field, three), &mut made);
        if key.len() > 1 {
            // A record that differs in another field of the key alone gets the same value there.
            let (first, mut apart) = (key[0] - 1, same);
            apart[first] = 500;
            let label = made.add(0, &apart);
            push(items, CONFLICTS, 9, update(label, first, values[first]), &mut made);
        }
    }
}

/// Each field above the eighth, so many times.
fn fields() -> impl Iterator<Item = (usize, u64)> {
    NEW_FIELDS.flat_map(|field| (0..ENOUGH).map(move |round| (field, round)))
}

/// References in fields 9 to 12: no label, to a record that is not shown, to one that is; and the
/// deletion of what they lead to.
fn references(items: &mut Items, random: &mut Random) {
    for (field, round) in fields() {
        let kind = some_kind(random);
        let mut made = Treatments::with(random, &[(field, kind)]);
        let (shown, deleted, unknown) = (made.target(0), made.target(1), made.new_label());
        let label = made.treatment(&[]);
        let hidden = if round % 2 == 0 { deleted } else { unknown };
        let no_label = made.random.pick(&[1, 255, 256, u64::MAX]);
        for (value, answer) in [(no_label, 7), (hidden, 8), (shown, 0)] {
            let values = made.values(&[(field, value)]);
            if answer != 0 || round % 2 == 0 {
                push(items, REFERENCES, answer, insertion(&made, &values), &mut made);
            }
            if answer != 0 || round % 2 == 1 {
                push(items, REFERENCES, answer, update(label, field, value), &mut made);
            }
        }
        for (kind, answer) in [(abort(TARGET), 10), (propagation(TARGET), 0)] {
            let mut made = Treatments::with(random, &[(field, kind)]);
            let target = made.target(0);
            made.treatment(&[(field, target)]);
            push(items, REFERENCES, answer, Edit::Deletion { index: target }, &mut made);
        }
    }
}

/// A deleted target that is shown, since a treatment references it by abort in this field; another
/// field has this kind. Gives the labels of both.
fn held(random: &mut Random, field: usize, other: (usize, u64)) -> (Treatments<'_>, u64, u64) {
    let mut made = Treatments::with(random, &[(field, abort(TARGET)), other]);
    let flag = made.odd_flag();
    let target = made.target(flag);
    let label = made.treatment(&[(field, target)]);
    (made, target, label)
}

/// Pushes an edit that redoes this target alone.
fn redone(items: &mut Items, target: u64, edit: Edit, made: &mut Treatments) {
    let (table, back) = push(items, REDOING, 0, edit, made);
    let at = index(&table, target) as usize - 1;
    let (before, after) = (table.records[at].flag, back.exits[0][layout::record(at) + FLAG]);
    assert_eq!((before % 2, after, back.exits[1][USED]), (1, before + 1, 2));
}

/// Targets that are redone: one that a field above the eighth leads to, or led to; and one that
/// another record references there.
fn redoing(items: &mut Items, random: &mut Random) {
    for (field, _) in fields() {
        let (kind, old) = (some_kind(random), random.below(OLD.fields as u64) as usize);
        let (mut made, target, _) = held(random, old, (field, kind));
        let values = made.values(&[(field, target)]);
        redone(items, target, insertion(&made, &values), &mut made);
        let (mut made, target, _) = held(random, old, (field, kind));
        let label = made.treatment(&[]);
        redone(items, target, update(label, field, target), &mut made);
        for (left, support) in [(field, old), (old, field)] {
            let (mut made, target, label) = held(random, left, (support, kind));
            made.treatment(&[(support, target)]);
            redone(items, target, update(label, left, 0), &mut made);
            redone(items, target, Edit::Deletion { index: label }, &mut made);
        }
    }
}

/// Twelve deleted targets, which stand since treatments reference them by abort; a treatment that
/// references all by abort, where all fields do.
fn twelve_targets(random: &mut Random, all_abort: bool) -> (Treatments<'_>, Vec<u64>, u64) {
    let relation = some_relation(random);
    let mut kinds = [abort(TARGET); FIELDS];
    for _ in 0..random.below(7) * !all_abort as u64 {
        kinds[random.below(FIELDS as u64) as usize] = propagation(TARGET);
    }
    let by_abort: Vec<usize> = (0..FIELDS).filter(|at| kinds[*at] == abort(TARGET)).collect();
    let mut made = Treatments::new(random, relation, &kinds, [0, 0]);
    let targets: Vec<u64> = (0..FIELDS)
        .map(|_| {
            let flag = made.odd_flag();
            made.target(flag)
        })
        .collect();
    let mut label = 0;
    for part in targets.chunks(by_abort.len()) {
        let wanted: Vec<(usize, u64)> =
            by_abort.iter().copied().zip(part.iter().copied()).collect();
        label = made.treatment(&wanted);
    }
    (made, targets, label)
}

/// An edit that redoes twelve targets: an insertion, or a deletion.
fn edit_of_thirteen(
    made: &mut Treatments,
    targets: &[u64],
    label: u64,
    by_insertion: bool,
) -> Edit {
    let mut values = targets.to_vec();
    made.random.shuffle(&mut values);
    if by_insertion {
        return insertion(made, &values);
    }
    made.add(0, &values);
    Edit::Deletion { index: label }
}

/// An edit whose delta has thirteen records: the schema, the table before it and after it, and the
/// delta.
pub fn thirteen(random: &mut Random, by_insertion: bool) -> (Vec<u64>, Table, Vec<u64>, Vec<u64>) {
    let (mut made, targets, label) = twelve_targets(random, !by_insertion);
    let edit = edit_of_thirteen(&mut made, &targets, label, by_insertion);
    let table = made.table(1);
    let (mut after, mut delta) = (table.words(), vec![0; layout::DELTA]);
    let (answer, _) = by_index(edit, &table).run(&made.schema, &mut after, &mut delta);
    assert_eq!((answer, delta[USED]), (0, DELTA_CAPACITY as u64));
    (made.schema, table, after, delta)
}

/// Edits that redo twelve targets; where the flag of one is at its end, the answer is 13.
fn deltas(items: &mut Items, random: &mut Random) {
    for round in 0..6 * ENOUGH {
        let (by_insertion, spent) = (round % 2 == 0, round % 5 == 4);
        let (mut made, targets, label) = twelve_targets(random, !by_insertion);
        if spent {
            let target = made.random.pick(&targets);
            made.record(target).flag = LARGEST_FLAG;
        }
        let edit = edit_of_thirteen(&mut made, &targets, label, by_insertion);
        let answer = if spent { 13 } else { 0 };
        let (_, back) = push(items, THIRTEEN, answer, edit, &mut made);
        assert!(spent || back.exits[1][USED] == DELTA_CAPACITY as u64);
    }
}

/// Updates of each field, and of the one above F; insertions of as many values as F, of one less and
/// of one more. F is 12 or one of 9 to 11.
fn field_numbers(items: &mut Items, random: &mut Random) {
    for round in 0..8 {
        let (relation, fields) = (some_relation(random), FIELDS - round / 2);
        let mut made = Treatments::new(random, relation, &vec![PLAIN; fields], [0, 0]);
        let label = made.treatment(&[]);
        for field in (round % 2..fields).step_by(2) {
            let value = made.random.pick(&[0, 40, u64::MAX]);
            push(items, FIELD_NUMBERS, 0, update(label, field, value), &mut made);
        }
        push(items, FIELD_NUMBERS, 7, update(label, fields, 0), &mut made);
        for (count, answer) in [(fields, 0), (fields - 1, 7), (fields + 1, 7)] {
            let mut values = made.values(&[]);
            values.resize(count, 0);
            push(items, FIELD_NUMBERS, answer, insertion(&made, &values), &mut made);
        }
    }
}

pub fn new_field_edits(items: &mut Items, random: &mut Random) {
    conflicts(items, random);
    references(items, random);
    redoing(items, random);
    deltas(items, random);
    field_numbers(items, random);
}
