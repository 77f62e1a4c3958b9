//! Which copy is ahead.

use crate::label;
use crate::layout;
use crate::merge::join;
use crate::rules::{holds, rule, to_twelve, Rule};
use crate::schema::{self, Schema};
use crate::shown::shown;
use crate::table::{self, Record, Table};
use crate::{need, Answer, Refusal};
use std::collections::BTreeMap;

/// What is said of two tables.
#[derive(Clone, Copy, Debug, PartialEq, Eq, PartialOrd, Ord)]
pub enum Verdict {
    Alike = 1,
    FirstBehind = 2,
    SecondBehind = 3,
    Neither = 4,
}

/// The number of the verdict: 0 in a refusal.
pub fn told(answer: &Answer<Verdict>) -> u64 {
    match answer {
        Ok(verdict) => *verdict as u64,
        Err(_) => 0,
    }
}

fn is_bare(record: &Record) -> bool {
    record.flag == 0 && record.registers.iter().all(|register| register.stamp == label::NONE)
}

/// The records of a table by relation and label: every one.
fn records<'a>(schema: &Schema, table: &'a Table) -> BTreeMap<(u64, u64), &'a Record> {
    let listed = if rule(Rule::ComparedHidden) {
        vec![true; table.records.len()]
    } else {
        shown(schema, table)
    };
    let counts = |(record, listed): &(&Record, bool)| {
        *listed
            && (rule(Rule::ComparedIncomplete) || record.is_complete())
            && (rule(Rule::ComparedBare) || !is_bare(record))
    };
    let counted = table.records.iter().zip(listed).filter(counts);
    counted.map(|(record, _)| (record.name(), record)).collect()
}

fn same_record(a: &Record, b: &Record) -> bool {
    let registers = a.registers.iter().zip(&b.registers);
    let same_registers = registers.take(to_twelve(Rule::ComparedToTwelve)).all(|(a, b)| {
        holds(Rule::ComparedValues, a.value == b.value)
            && holds(Rule::ComparedStamps, a.stamp == b.stamp)
    });
    same_registers && holds(Rule::ComparedFlags, a.flag == b.flag)
}

/// Capacity, replica number and positions are no part of the contents, and not compared.
fn same_besides(a: &Table, b: &Table) -> bool {
    let names = |table: &Table| -> Vec<(u64, u64)> {
        table.records.iter().map(|record| record.name()).collect()
    };
    (rule(Rule::CapacityNoPart) || a.capacity == b.capacity)
        && (rule(Rule::ReplicaNoPart) || a.replica == b.replica)
        && (rule(Rule::PositionNoPart) || names(a) == names(b))
}

/// Whether two tables have exactly the same clock, records, registers and flags.
fn same(schema: &Schema, a: &Table, b: &Table) -> bool {
    let (of_a, of_b) = (records(schema, a), records(schema, b));
    let mut common = of_a.iter().filter_map(|(name, record)| Some((record, of_b.get(name)?)));
    holds(Rule::ComparedClock, a.clock == b.clock)
        && holds(Rule::ComparedRecords, of_a.keys().eq(of_b.keys()))
        && common.all(|(a, b)| same_record(a, b))
        && same_besides(a, b)
}

/// What is said of two decoded tables.
fn verdict(schema: &Schema, first: &Table, second: &Table) -> Verdict {
    let mut merged = join(first, second);
    if !rule(Rule::RoomNoPart) && merged.records.len() > merged.capacity {
        merged = first.clone();
    }
    let (first_has, second_has) = (same(schema, &merged, first), same(schema, &merged, second));
    if second_has && holds(Rule::FirstHasNot, !first_has) {
        Verdict::FirstBehind
    } else if first_has && holds(Rule::SecondHasNot, !second_has) {
        Verdict::SecondBehind
    } else if first_has {
        Verdict::Alike
    } else {
        Verdict::Neither
    }
}

/// The checks 3 and 4.
fn read_both(schema: &Schema, first: &[u64], second: &[u64]) -> Answer<(Table, Table)> {
    let number = |by: Rule, own: Refusal, other: Refusal| if rule(by) { own } else { other };
    let of_first = number(Rule::FirstDamaged, Refusal::OwnTable, Refusal::OtherTable);
    let of_second = number(Rule::SecondDamaged, Refusal::OtherTable, Refusal::OwnTable);
    let second = table::read(schema, second).ok_or(of_second);
    if !rule(Rule::FirstBeforeSecond) {
        second.clone()?;
    }
    Ok((table::read(schema, first).ok_or(of_first)?, second?))
}

/// Says of two tables which is behind.
pub fn compare(schema: &[u64], first: &[u64], second: &[u64]) -> Answer<Verdict> {
    let lengths = holds(Rule::ComparedSchemaLength, schema.len() == layout::SCHEMA)
        && holds(Rule::FirstLength, table::capacity_of(first.len()).is_some())
        && holds(Rule::SecondLength, table::capacity_of(second.len()).is_some());
    need(lengths, Refusal::LengthOrIndex)?;
    let schema = schema::read(schema).ok_or(Refusal::BrokenSchema)?;
    let (first, second) = read_both(&schema, first, second)?;
    Ok(verdict(&schema, &first, &second))
}
