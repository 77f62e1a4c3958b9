//! The shown list: its four steps, the marks and the walk.

use crate::label;
use crate::layout::FIELDS;
use crate::rules::{holds, rule, to_twelve, Rule};
use crate::schema::Schema;
use crate::table::{self, Record, Table};
use crate::Answer;
use std::collections::{BTreeMap, BTreeSet};

/// What a walk gives: the index of the next marked record, or the end of the list.
#[derive(Clone, Copy, Debug, PartialEq, Eq)]
pub enum Step {
    Record(u64),
    End,
}

/// The nonempty references of a record: the target's relation and label, and whether it aborts.
pub fn references(schema: &Schema, record: &Record) -> Vec<((u64, u64), bool)> {
    references_of(schema, record, FIELDS)
}

/// Those of the first fields, which are so many.
pub fn references_of(schema: &Schema, record: &Record, fields: usize) -> Vec<((u64, u64), bool)> {
    let mut found = Vec::new();
    if let Some(relation) = schema.relation(record.relation) {
        for (kind, register) in relation.kinds.iter().zip(&record.registers).take(fields) {
            if let Some(target) = kind.target() {
                if register.value != 0 {
                    found.push(((target, register.value), kind.abort_target().is_some()));
                }
            }
        }
    }
    found
}

/// Steps 1 and 2: which records stand.
pub fn standing(schema: &Schema, table: &Table) -> Vec<bool> {
    let positions = table.positions();
    let taken = |record: &Record| {
        holds(Rule::TakenComplete, record.is_complete()) && holds(Rule::TakenEven, record.is_even())
    };
    let mut stands: Vec<bool> = table.records.iter().map(taken).collect();
    let mut waiting: Vec<usize> = (0..stands.len()).filter(|at| stands[*at]).collect();
    while let Some(at) = waiting.pop() {
        let fields = to_twelve(Rule::ReachedToTwelve);
        for (name, aborts) in references_of(schema, &table.records[at], fields) {
            let Some(target) = positions.get(&name) else {
                continue;
            };
            let reached = rule(Rule::AddReached)
                && holds(Rule::ReachedByAbort, aborts)
                && holds(Rule::HopOnComplete, table.records[*target].is_complete());
            if reached && !stands[*target] {
                stands[*target] = true;
                if rule(Rule::AnyHops) {
                    waiting.push(*target);
                }
            }
        }
    }
    stands
}

/// The values under a key; none if a reference among them is empty.
pub fn key_values(
    schema: &Schema,
    relation: u64,
    key: &[usize],
    values: &[u64],
) -> Option<Vec<u64>> {
    let kinds = &schema.relation(relation)?.kinds;
    let mut found = Vec::new();
    for field in key {
        let value = *values.get(*field)?;
        let by = match kinds.get(*field)?.target() {
            Some(_) => rule(Rule::EmptyReferenceInKey),
            None => !rule(Rule::PlainZeroInKey),
        };
        if value == 0 && by {
            return None;
        }
        found.push(value);
    }
    if !rule(Rule::AllKeyFields) {
        found.truncate(1);
    }
    Some(found)
}

pub fn values_of(record: &Record) -> Vec<u64> {
    record.registers.iter().map(|register| register.value).collect()
}

/// Step 3: by rising label, the standing records that conflict with no older one that it kept.
fn without_losers(schema: &Schema, table: &Table, stands: &[bool]) -> Vec<bool> {
    let mut stays = stands.to_vec();
    for (number, relation) in (1..).zip(&schema.relations) {
        for keys in passes(&relation.keys) {
            for at in losers(&by_rising_label(schema, table, &stays, number, keys)) {
                stays[at] = stays[at] && !rule(Rule::DropLosers);
            }
        }
    }
    stays
}

/// Either key, both at once.
fn passes(keys: &[Vec<usize>]) -> Vec<&[Vec<usize>]> {
    let [first, second] = keys else {
        return vec![keys];
    };
    let [first, second] = [first, second].map(std::slice::from_ref);
    if !rule(Rule::OnSecondKey) {
        vec![first]
    } else if !rule(Rule::OnFirstKey) {
        vec![second]
    } else if !rule(Rule::FirstKeyNotBefore) {
        vec![first, second]
    } else if !rule(Rule::SecondKeyNotBefore) {
        vec![second, first]
    } else {
        vec![keys]
    }
}

/// A record's position, and its values under each key on which it can conflict.
type Keyed = (usize, Vec<(usize, Vec<u64>)>);

/// The standing records of a relation in the order of their labels, with their values under these
/// keys.
fn by_rising_label(
    schema: &Schema,
    table: &Table,
    stands: &[bool],
    relation: u64,
    keys: &[Vec<usize>],
) -> Vec<Keyed> {
    let taken = |at: &usize| {
        holds(Rule::WithinRelation, table.records[*at].relation == relation)
            && holds(Rule::StandingWins, stands[*at])
    };
    let mut order: Vec<usize> = (0..stands.len()).filter(taken).collect();
    if rule(Rule::ByRisingLabel) {
        order.sort_by_key(|at| {
            let label = table.records[*at].label;
            let replica = if rule(Rule::LabelAsNumber) { 0 } else { label::replica(label) };
            (replica, label)
        });
    }
    if !rule(Rule::OlderWins) {
        order.reverse();
    }
    let keyed = |at: usize| {
        let values = values_of(&table.records[at]);
        let under = |key: &Vec<usize>| key_values(schema, relation, key, &values);
        let under = keys.iter().map(under).enumerate();
        (at, under.filter_map(|(key, values)| Some((key, values?))).collect())
    };
    order.into_iter().map(keyed).collect()
}

/// Of these records, those that step 3 drops. A dropped one blocks nobody.
fn losers(records: &[Keyed]) -> Vec<usize> {
    if !rule(Rule::LoserBlocksNobody) {
        return conflicting(records, |_, _| true);
    }
    if !rule(Rule::KeptInTurn) {
        let others = conflicting(records, |_, _| true);
        return conflicting(records, |at, _| !others.contains(&at));
    }
    conflicting(records, |_, conflicts| !conflicts)
}

/// The records that conflict with one before them that blocks. Whether one blocks is told of its
/// position and of whether it conflicts itself.
fn conflicting(records: &[Keyed], blocks: impl Fn(usize, bool) -> bool) -> Vec<usize> {
    let mut blocked = BTreeSet::new();
    let mut found = Vec::new();
    for (at, keys) in records {
        let conflicts = keys.iter().any(|key| blocked.contains(key));
        if conflicts {
            found.push(*at);
        }
        if blocks(*at, conflicts) {
            blocked.extend(keys);
        }
    }
    found
}

fn has_empty(schema: &Schema, record: &Record) -> bool {
    let kinds = schema.relation(record.relation).map_or(&[][..], |of| &of.kinds);
    let mut fields = kinds.iter().zip(&record.registers);
    fields.any(|(kind, register)| kind.target().is_some() && register.value == 0)
}

/// The set built up from records without references: rings are not in it.
fn built_up(schema: &Schema, table: &Table, stays: &[bool]) -> Vec<bool> {
    let positions = table.positions();
    let mut members = vec![false; stays.len()];
    let mut before = None;
    while before != Some(members.clone()) {
        before = Some(members.clone());
        for (at, record) in table.records.iter().enumerate() {
            let member = |name: &(u64, u64)| positions.get(name).is_some_and(|to| members[*to]);
            members[at] = stays[at] && references(schema, record).iter().all(|to| member(&to.0));
        }
    }
    members
}

/// Step 4: the largest set in which every nonempty reference leads to a member.
fn closed(schema: &Schema, table: &Table, stays: &[bool]) -> Vec<bool> {
    let positions = table.positions();
    let mut members = stays.to_vec();
    // For each record the ones that reference it; a record with an unknown target goes at once.
    let mut holders: BTreeMap<usize, Vec<usize>> = BTreeMap::new();
    let mut gone: Vec<usize> = (0..members.len()).filter(|at| !members[*at]).collect();
    for (at, record) in table.records.iter().enumerate() {
        if members[at] && !rule(Rule::ClosedButForEmpty) && has_empty(schema, record) {
            members[at] = false;
            gone.push(at);
        }
        for (name, aborts) in references_of(schema, record, to_twelve(Rule::ClosedToTwelve)) {
            if !rule(if aborts { Rule::ClosedByAbort } else { Rule::ClosedByPropagation }) {
                continue;
            }
            match positions.get(&name) {
                Some(target) => holders.entry(*target).or_default().push(at),
                None if members[at] => {
                    members[at] = false;
                    gone.push(at);
                }
                None => {}
            }
        }
    }
    while let Some(lost) = gone.pop() {
        if !rule(Rule::LeadsToMember) && stays[lost] {
            continue;
        }
        for at in holders.get(&lost).into_iter().flatten() {
            if members[*at] {
                members[*at] = false;
                gone.push(*at);
            }
        }
    }
    members
}

/// Which records each step leaves.
pub struct Steps {
    /// Steps 1 and 2.
    pub standing: Vec<bool>,
    /// Step 3.
    pub kept: Vec<bool>,
    /// Step 4.
    pub shown: Vec<bool>,
}

/// The four steps.
pub fn steps(schema: &Schema, table: &Table) -> Steps {
    let standing = standing(schema, table);
    let kept = without_losers(schema, table, &standing);
    let shown = largest(schema, table, &standing, &kept);
    Steps { standing, kept, shown }
}

/// Step 4, with all that the page says of it.
fn largest(schema: &Schema, table: &Table, stands: &[bool], stays: &[bool]) -> Vec<bool> {
    if !rule(Rule::KeepClosed) {
        return stays.to_vec();
    }
    if !rule(Rule::LargestSet) {
        return built_up(schema, table, stays);
    }
    let members = closed(schema, table, stays);
    if !rule(Rule::LoserStaysOut) {
        let lost = |at: usize| stays[at] && !members[at];
        let stands: Vec<bool> = (0..stands.len()).map(|at| stands[at] && !lost(at)).collect();
        return closed(schema, table, &without_losers(schema, table, &stands));
    }
    members
}

/// Which records are shown.
pub fn shown(schema: &Schema, table: &Table) -> Vec<bool> {
    steps(schema, table).shown
}

/// Writes the marks; gives the shown count.
pub fn marks(schema: &[u64], table: &[u64], marks: &mut [u8]) -> Answer<u64> {
    let length = table::capacity_of(table.len()) == Some(marks.len());
    let (schema, table) = table::read_checked(schema, table, length)?;
    let members = shown(&schema, &table);
    for (at, mark) in marks.iter_mut().enumerate() {
        *mark = members.get(at).copied().unwrap_or(false) as u8;
    }
    Ok(members.iter().filter(|member| **member).count() as u64)
}

fn in_position_order(marks: &[u8], place: &mut u64) -> Step {
    match marks.iter().skip(*place as usize).position(|mark| *mark == 1) {
        Some(further) => {
            *place += further as u64 + 1;
            Step::Record(*place)
        }
        None => Step::End,
    }
}

/// Moves the place to the next marked record; at the end it does not move.
pub fn walk(schema: &[u64], table: &[u64], marks: &[u8], place: &mut u64) -> Answer<Step> {
    let length = table::capacity_of(table.len()) == Some(marks.len());
    let more = length && table::is_place(table, *place);
    let (_, table) = table::read_checked(schema, table, more)?;
    if !rule(Rule::WalkInListOrder) {
        return Ok(in_position_order(marks, place));
    }
    let after = if *place == 0 { (0, 0) } else { table.records[*place as usize - 1].name() };
    for (name, at) in table.positions() {
        if name > after && marks[at] != 0 && holds(Rule::MarkIsOne, marks[at] == 1) {
            *place = at as u64 + 1;
            return Ok(Step::Record(*place));
        }
    }
    Ok(Step::End)
}

/// The index that a walk gave, or 0.
pub fn given(answer: &Answer<Step>) -> u64 {
    match answer {
        Ok(Step::Record(index)) => *index,
        _ => 0,
    }
}
