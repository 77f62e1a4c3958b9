//! Merge.

use crate::label::{flag_changed, join_flags, join_registers, register_changed, Register};
use crate::layout::{Form, NEW};
use crate::rules::{holds, rule, to_twelve, Rule};
use crate::schema;
use crate::table::{self, Record, Table};
use crate::{need, Answer, Refusal};

/// The merge of two decoded tables, with no regard to the capacity.
pub fn join(own: &Table, other: &Table) -> Table {
    let mut joined = own.clone();
    let own_positions = own.positions();
    if rule(Rule::LargerClock) {
        joined.clock = own.clock.max(other.clock);
    }
    if !rule(Rule::OwnReplica) {
        joined.replica = other.replica;
    }
    let mut order: Vec<usize> = other.positions().into_values().collect();
    if !rule(Rule::AddedInListOrder) {
        order.sort();
    }
    for at in order {
        let theirs = &other.records[at];
        match own_positions.get(&theirs.name()) {
            Some(position) => {
                let ours = &mut joined.records[*position];
                if rule(Rule::JoinFlags) {
                    ours.flag = join_flags(ours.flag, theirs.flag).0;
                }
                let registers = ours.registers.iter_mut().zip(&theirs.registers);
                for (register, their) in registers.take(to_twelve(Rule::JoinToTwelve)) {
                    if rule(Rule::JoinRegisters) {
                        *register = join_registers(*register, *their).0;
                    }
                }
            }
            None if rule(Rule::AddOthers) => joined.records.push(theirs.clone()),
            None => {}
        }
    }
    joined
}

/// How many registers of a record, the flag among them, differ from before.
fn changes(before: &Record, after: &Record) -> usize {
    let registers = before.registers.iter().zip(&after.registers);
    let registers = registers.take(to_twelve(Rule::ChangesToTwelve));
    registers.filter(|(before, after)| register_changed(**before, **after)).count()
        + flag_changed(before.flag, after.flag) as usize
}

/// What an old record counts.
fn counts_old(before: &Record, after: &Record) -> usize {
    let changes = changes(before, after);
    if !rule(Rule::OldCounted) {
        0
    } else if !rule(Rule::OldCountedOnce) {
        changes
    } else {
        holds(Rule::OldWithChange, changes > 0) as usize
    }
}

/// What an added record counts.
fn counts_added(record: &Record) -> usize {
    let registers = vec![Register::default(); record.registers.len()];
    let changes = changes(&Record { flag: 0, registers, ..*record }, record);
    if !rule(Rule::AddedCounted) {
        0
    } else if !rule(Rule::AddedCountedOnce) {
        changes
    } else {
        (rule(Rule::AddedCountedBare) || changes > 0) as usize
    }
}

/// The number of old records with a change, plus those added, from the table before and after. Old
/// positions remain, so that the records above those before are the added ones.
fn changed(before: &Table, after: &Table) -> usize {
    let mut number = 0;
    for (at, record) in after.records.iter().enumerate() {
        number += match before.records.get(at) {
            Some(old) => counts_old(old, record),
            None => counts_added(record),
        };
    }
    if !rule(Rule::ClockNotCounted) && after.clock != before.clock {
        number += 1;
    }
    number
}

/// Merges the other table into the own; gives the number of old records with a change, plus those
/// added.
pub fn merge(schema: &[u64], own: &mut [u64], other: &[u64]) -> Answer<usize> {
    merge_in(NEW, schema, own, other)
}

/// The same of words in a form.
pub fn merge_in(form: Form, schema: &[u64], own: &mut [u64], other: &[u64]) -> Answer<usize> {
    let lengths = schema.len() == form.schema()
        && table::capacity_in(form, own.len()).is_some()
        && table::capacity_in(form, other.len()).is_some();
    need(lengths, Refusal::LengthOrIndex)?;
    let schema = schema::read_in(form, schema).ok_or(Refusal::BrokenSchema)?;
    let own_table = table::read_in(form, &schema, own).ok_or(Refusal::OwnTable)?;
    let other_table = table::read_in(form, &schema, other).ok_or(Refusal::OtherTable)?;
    let joined = join(&own_table, &other_table);
    need(holds(Rule::MergeFull, joined.records.len() <= joined.capacity), Refusal::Full)?;
    own.copy_from_slice(&joined.words_in(form));
    Ok(changed(&own_table, &joined))
}
