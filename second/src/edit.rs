//! The three edits, and the deltas they write.

use crate::label::{self, delete, label_of, redo, Register};
use crate::layout::{self, DELTA_CAPACITY, OLD};
use crate::rules::{holds, rule, to_twelve, Rule};
use crate::schema::{Kind, Schema};
use crate::shown::{key_values, references_of, steps, values_of, Steps};
use crate::table::{self, Record, Table};
use crate::{need, Answer, Refusal};

/// A record of a delta with no register and no flag yet.
fn blank(record: &Record) -> Record {
    let mut blank = record.clone();
    if rule(Rule::UnchangedFlagsZero) {
        blank.flag = 0;
    }
    if rule(Rule::UnchangedRegistersNone) {
        blank.registers.fill(Register::default());
    }
    blank
}

/// The rules of the condition for redoing.
struct Condition {
    any: Rule,
    complete: Rule,
    even: Rule,
    other: Rule,
    by_abort: Rule,
    by_propagation: Rule,
    to_twelve: Rule,
}

const OF_UPDATE: Condition = Condition {
    any: Rule::UpdateSupport,
    complete: Rule::UpdateSupportComplete,
    even: Rule::UpdateSupportEven,
    other: Rule::UpdateSupportOther,
    by_abort: Rule::UpdateSupportByAbort,
    by_propagation: Rule::UpdateSupportByPropagation,
    to_twelve: Rule::UpdateSupportToTwelve,
};

const OF_DELETION: Condition = Condition {
    any: Rule::DeletionSupport,
    complete: Rule::DeletionSupportComplete,
    even: Rule::DeletionSupportEven,
    other: Rule::DeletionSupportOther,
    by_abort: Rule::DeletionSupportByAbort,
    by_propagation: Rule::DeletionSupportByPropagation,
    to_twelve: Rule::DeletionSupportToTwelve,
};

/// The flags of all records, as a call found them.
fn found_flags(table: &Table) -> Vec<u64> {
    table.records.iter().map(|record| record.flag).collect()
}

/// Whether a complete even record, other than the one at `except`, references this one. Whether a
/// record is even is read in these flags.
fn is_held(
    schema: &Schema,
    table: &Table,
    flags: &[u64],
    name: (u64, u64),
    except: usize,
    by: &Condition,
) -> bool {
    let counts = |aborts: bool| rule(if aborts { by.by_abort } else { by.by_propagation });
    let held = table.records.iter().enumerate().any(|(at, record)| {
        let references = references_of(schema, record, to_twelve(by.to_twelve));
        holds(by.other, at != except)
            && holds(by.complete, record.is_complete())
            && holds(by.even, !label::is_deleted(flags[at]))
            && references.iter().any(|(to, aborts)| *to == name && counts(*aborts))
    });
    holds(by.any, held)
}

/// Whether a standing record, other than the one at `except`, conflicts with these values.
fn is_taken(
    schema: &Schema,
    table: &Table,
    stands: &[bool],
    relation: u64,
    key: &[usize],
    values: &[u64],
    except: Option<usize>,
) -> bool {
    let Some(wanted) = key_values(schema, relation, key, values) else {
        return false;
    };
    table.records.iter().enumerate().any(|(at, record)| {
        holds(Rule::ConflictWithAnother, Some(at) != except)
            && stands[at]
            && record.relation == relation
            && key_values(schema, relation, key, &values_of(record)).as_ref() == Some(&wanted)
    })
}

/// What the checks look at in the steps, as a call found them.
impl Steps {
    /// 8: a new target is one of these.
    fn targets(&self) -> &[bool] {
        if rule(Rule::TargetNotOnlyStanding) {
            &self.shown
        } else {
            &self.standing
        }
    }

    /// 9: a conflict is with one of these.
    fn conflicting(&self) -> &[bool] {
        self.all_standing(Rule::ConflictWithStanding, Rule::ConflictWithLosers)
    }

    /// 10: a record is guarded by one of these.
    fn guarding(&self) -> &[bool] {
        self.all_standing(Rule::GuardedByStanding, Rule::GuardedByLosers)
    }

    /// All standing records, by these rules: not only shown ones, and not only those that step 3
    /// kept.
    fn all_standing(&self, not_only_shown: Rule, not_only_kept: Rule) -> &[bool] {
        if !rule(not_only_shown) {
            &self.shown
        } else if !rule(not_only_kept) {
            &self.kept
        } else {
            &self.standing
        }
    }
}

/// 7: a reference is 0 or a label.
fn is_value(kind: Kind, value: u64) -> bool {
    kind == Kind::Plain || holds(Rule::ReferenceValue, label::is_label_or_none(value))
}

/// The position of the target of a nonempty reference; the outer none is an empty reference.
fn target_of(table: &Table, kind: Kind, value: u64) -> Option<Option<usize>> {
    let relation = kind.target()?;
    if value == 0 {
        return None;
    }
    Some(table.positions().get(&(relation, value)).copied())
}

/// 8: the target, if nonempty, is shown.
fn target_is_shown(table: &Table, members: &[bool], kind: Kind, value: u64) -> bool {
    match target_of(table, kind, value) {
        None => kind == Kind::Plain || rule(Rule::TargetNonempty),
        Some(None) => !rule(Rule::TargetShown),
        Some(Some(at)) => holds(Rule::TargetShown, members[at]),
    }
}

/// 13: no flag to be redone is the largest.
fn can_redo(table: &Table, redone: &[usize]) -> bool {
    let flags_fit = redone.iter().all(|at| table.records[*at].flag < label::LARGEST_FLAG);
    holds(Rule::FlagAtEnd, flags_fit)
}

/// Each of these positions once.
fn once(by: Rule, mut redone: Vec<usize>) -> Vec<usize> {
    redone.sort();
    if rule(by) {
        redone.dedup();
    }
    redone
}

/// Redoes the records at these positions, in the table and in the list of changed records.
fn redo_all(table: &mut Table, changed: &mut Vec<Record>, redone: &[usize]) {
    for (number, at) in redone.iter().enumerate() {
        let again = redone[..number].contains(at);
        let record = &mut table.records[*at];
        record.flag = if again { record.flag + 1 } else { redo(record.flag) };
        match changed.iter_mut().find(|change| change.name() == record.name()) {
            Some(change) => change.flag = record.flag,
            None => {
                let mut change = blank(record);
                change.flag = record.flag;
                changed.push(change);
            }
        }
    }
}

/// 1: the length of a delta.
pub(crate) fn is_delta(delta: &[u64]) -> bool {
    holds(Rule::DeltaLength, delta.len() == layout::DELTA)
}

/// Writes the table and the delta.
fn write(table: &Table, mut changed: Vec<Record>, own: &mut [u64], delta: &mut [u64]) {
    if !rule(Rule::OnlyChanged) {
        changed.extend(table.records.first().cloned());
    }
    if rule(Rule::DeltaInListOrder) {
        changed.sort_by_key(Record::name);
    }
    if !rule(Rule::DeltaToThirteen) {
        changed.truncate(OLD.delta_capacity());
    }
    let written = Table {
        capacity: DELTA_CAPACITY,
        replica: table.replica,
        clock: table.clock,
        records: changed,
    };
    own.copy_from_slice(&table.words());
    delta.copy_from_slice(&written.words());
}

/// Inserts a record; gives its label.
pub fn insertion(
    schema: &[u64],
    own: &mut [u64],
    delta: &mut [u64],
    relation: u64,
    values: &[u64],
) -> Answer<u64> {
    let (schema, mut table) = table::read_checked(schema, own, is_delta(delta))?;
    let known = schema.relation(relation).is_some();
    let relation = if !known && !rule(Rule::RelationNumber) { 1 } else { relation };
    let of = schema.relation(relation).ok_or(Refusal::RelationOrReplica)?;
    need(holds(Rule::ValueCount, values.len() == of.kinds.len()), Refusal::FieldOrValue)?;
    let mut values = values.to_vec();
    values.resize(of.kinds.len(), 0);
    let fields: Vec<(Kind, u64)> = of.kinds.iter().copied().zip(values.iter().copied()).collect();
    let mut valued = fields.iter().take(to_twelve(Rule::ReferencesToTwelve));
    need(valued.all(|(kind, value)| is_value(*kind, *value)), Refusal::FieldOrValue)?;
    let found = steps(&schema, &table);
    let mut targets = fields.iter().take(to_twelve(Rule::TargetsShownToTwelve));
    let targets_shown =
        targets.all(|(kind, value)| target_is_shown(&table, found.targets(), *kind, *value));
    need(targets_shown, Refusal::TargetNotShown)?;
    let stands = found.conflicting();
    let taken =
        of.keys.iter().any(|key| is_taken(&schema, &table, stands, relation, key, &values, None));
    need(!(taken && rule(Rule::InsertionConflict)), Refusal::Conflict)?;
    need(holds(Rule::InsertionFull, table.records.len() < table.capacity), Refusal::Full)?;
    let clock_fits = table.clock < label::LARGEST_COUNTER;
    need(holds(Rule::InsertionClockAtEnd, clock_fits), Refusal::ClockAtEnd)?;
    let fields = fields.iter().take(to_twelve(Rule::InsertionTargetsToTwelve));
    let targets = fields.filter_map(|(kind, value)| target_of(&table, *kind, *value).flatten());
    let redone = targets
        .filter(|_| rule(Rule::InsertionRedoes))
        .filter(|at| holds(Rule::InsertionTargetOdd, !table.records[*at].is_even()))
        .collect();
    let redone = once(Rule::InsertionOnce, redone);
    need(can_redo(&table, &redone), Refusal::FlagAtEnd)?;

    let replica = if rule(Rule::NewLabelReplica) { table.replica } else { 1 };
    let name = label_of(table.clock + 1, replica);
    table.clock += rule(Rule::InsertionClock) as u64;
    let mut registers: Vec<Register> =
        values.iter().map(|value| Register { value: *value, stamp: name }).collect();
    let stamped = if rule(Rule::StampsAllFields) { to_twelve(Rule::StampsToTwelve) } else { 1 };
    registers.iter_mut().skip(stamped).for_each(|register| register.stamp = label::NONE);
    let record = Record { relation, label: name, flag: 0, registers };
    table.records.push(record.clone());
    let mut changed = vec![record];
    redo_all(&mut table, &mut changed, &redone);
    write(&table, changed, own, delta);
    Ok(name)
}

/// The positions that an update of one field of the record at `at` redoes. The field is told by its
/// column and its kind.
fn redone_by_update(
    schema: &Schema,
    table: &Table,
    at: usize,
    (column, kind): (usize, Kind),
    old_value: u64,
    value: u64,
) -> Vec<usize> {
    let mut redone = Vec::new();
    let mut flags = found_flags(table);
    if let Some(target) = target_of(table, kind, value).flatten() {
        let odd = label::is_deleted(flags[target]);
        let asked = rule(Rule::NewTargetRedone) && column < to_twelve(Rule::NewTargetToTwelve);
        if asked && holds(Rule::NewTargetOdd, odd) {
            redone.push(target);
        }
        if !rule(Rule::UpdateReadsFound) {
            flags[target] = redo(flags[target]);
        }
    }
    let asked = rule(Rule::OldTargetRedone)
        && column < to_twelve(Rule::OldTargetToTwelve)
        && holds(Rule::OldTargetDifferent, old_value != value)
        && holds(Rule::OldTargetByAbort, kind.abort_target().is_some());
    if let Some(target) = target_of(table, kind, old_value).flatten().filter(|_| asked) {
        let odd = holds(Rule::OldTargetOdd, label::is_deleted(flags[target]));
        let name = table.records[target].name();
        if odd && is_held(schema, table, &flags, name, at, &OF_UPDATE) && !redone.contains(&target)
        {
            redone.push(target);
        }
    }
    redone
}

/// Updates one field of a shown record; fields count from 1.
pub fn update(
    schema: &[u64],
    own: &mut [u64],
    delta: &mut [u64],
    index: u64,
    field: u64,
    value: u64,
) -> Answer<()> {
    let more = is_delta(delta) && table::is_index(own, index);
    let (schema, mut table) = table::read_checked(schema, own, more)?;
    let at = index as usize - 1;
    let found = steps(&schema, &table);
    need(holds(Rule::UpdateShown, found.shown[at]), Refusal::NotShown)?;
    let relation = table.records[at].relation;
    let of = schema.relation(relation).ok_or(Refusal::RelationOrReplica)?;
    let field_fits = 1 <= field && field <= of.kinds.len() as u64;
    need(holds(Rule::FieldNumber, field_fits), Refusal::FieldOrValue)?;
    let column = if field_fits { field as usize - 1 } else { 0 };
    need(column < to_twelve(Rule::FieldNumberToTwelve), Refusal::FieldOrValue)?;
    let kind = of.kinds[column];
    let unasked = |by: Rule| column >= to_twelve(by);
    need(unasked(Rule::ReferencesToTwelve) || is_value(kind, value), Refusal::FieldOrValue)?;
    let target_shown = target_is_shown(&table, found.targets(), kind, value);
    need(unasked(Rule::TargetsShownToTwelve) || target_shown, Refusal::TargetNotShown)?;
    let stands = found.conflicting();
    let mut values = values_of(&table.records[at]);
    let old_value = values[column];
    values[column] = value;
    let taken = of
        .keys
        .iter()
        .filter(|key| holds(Rule::ConflictOnNamedKey, key.contains(&column)))
        .any(|key| is_taken(&schema, &table, stands, relation, key, &values, Some(at)));
    need(!(taken && rule(Rule::UpdateConflict)), Refusal::Conflict)?;
    let clock_fits = table.clock < label::LARGEST_COUNTER;
    need(holds(Rule::UpdateClockAtEnd, clock_fits), Refusal::ClockAtEnd)?;
    let redone = redone_by_update(&schema, &table, at, (column, kind), old_value, value);
    need(can_redo(&table, &redone), Refusal::FlagAtEnd)?;

    table.clock += rule(Rule::UpdateClock) as u64;
    let register = Register { value, stamp: label_of(table.clock, table.replica) };
    let mut change = blank(&table.records[at]);
    change.registers[column] = register;
    table.records[at].registers[column] = register;
    let mut changed = vec![change];
    redo_all(&mut table, &mut changed, &redone);
    write(&table, changed, own, delta);
    Ok(())
}

/// The positions that a deletion of the record at `at` redoes.
fn redone_by_deletion(schema: &Schema, table: &Table, at: usize) -> Vec<usize> {
    let mut redone = Vec::new();
    let mut flags = found_flags(table);
    if !rule(Rule::DeletionReadsOwnFound) {
        flags[at] = delete(flags[at]);
    }
    let positions = table.positions();
    let fields = to_twelve(Rule::DeletionTargetsToTwelve);
    for (target, aborts) in references_of(schema, &table.records[at], fields) {
        let Some(position) = positions.get(&target) else {
            continue;
        };
        if rule(Rule::DeletionRedoes)
            && holds(Rule::DeletionByAbort, aborts)
            && holds(Rule::DeletionOther, *position != at)
            && holds(Rule::DeletionTargetOdd, label::is_deleted(flags[*position]))
            && is_held(schema, table, &flags, target, at, &OF_DELETION)
        {
            redone.push(*position);
            if !rule(Rule::DeletionReadsFound) {
                flags[*position] = redo(flags[*position]);
            }
        }
    }
    once(Rule::DeletionOnce, redone)
}

/// Deletes a shown record.
pub fn deletion(schema: &[u64], own: &mut [u64], delta: &mut [u64], index: u64) -> Answer<()> {
    let more = is_delta(delta) && table::is_index(own, index);
    let (schema, mut table) = table::read_checked(schema, own, more)?;
    let at = index as usize - 1;
    let found = steps(&schema, &table);
    need(holds(Rule::DeletionShown, found.shown[at]), Refusal::NotShown)?;
    let stands = found.guarding();
    let name = table.records[at].name();
    let guarded = table.records.iter().enumerate().any(|(other, record)| {
        let by_abort = |aborts: bool| holds(Rule::GuardedByAbort, aborts);
        let references = references_of(&schema, record, to_twelve(Rule::GuardedToTwelve));
        holds(Rule::GuardedByAnother, other != at)
            && stands[other]
            && references.iter().any(|to| to.0 == name && by_abort(to.1))
    });
    need(!(guarded && rule(Rule::Guarded)), Refusal::Guarded)?;
    let redone = redone_by_deletion(&schema, &table, at);
    need(can_redo(&table, &redone), Refusal::FlagAtEnd)?;

    if !rule(Rule::DeletionClock) {
        table.clock += 1;
    }
    let record = &mut table.records[at];
    if rule(Rule::DeletionRaises) {
        record.flag = delete(record.flag);
    }
    let mut change = blank(record);
    change.flag = record.flag;
    let mut changed = vec![change];
    redo_all(&mut table, &mut changed, &redone);
    write(&table, changed, own, delta);
    Ok(())
}
