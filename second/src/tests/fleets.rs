//! Random fleets: tables that took in the same edits have the same records and show the same list.

use crate::random::{self, Random};
use crate::table::{Record, Table};
use crate::vectors::{
    next_of_fleet, some_fleet, Fleet, Item, FLEET_BEGIN, FLEET_COPY, FLEET_COPY_DELTA,
    FLEET_DELETION, FLEET_INSERTION, FLEET_MERGE, FLEET_SPOIL, FLEET_START, SLOTS,
};
use std::collections::BTreeSet;

/// The edits that a table took in; none for spoiled words.
type Taken = Option<BTreeSet<usize>>;

fn track(taken: &mut [Taken], of_delta: &mut Taken, item: &Item, answer: u64, at: usize) {
    let slot = item.words[0] as usize % SLOTS;
    match item.call {
        FLEET_BEGIN => taken.fill(None),
        FLEET_START if answer == 0 => taken[slot] = Some(BTreeSet::new()),
        FLEET_COPY => taken[item.words[1] as usize % SLOTS] = taken[slot].clone(),
        FLEET_COPY_DELTA => taken[slot] = of_delta.clone(),
        FLEET_SPOIL => taken[slot] = None,
        FLEET_MERGE if answer == 0 => {
            let more = taken[item.words[1] as usize % SLOTS].clone();
            taken[slot] = match (taken[slot].take(), more) {
                (Some(own), Some(more)) => Some(own.union(&more).copied().collect()),
                _ => None,
            };
        }
        FLEET_INSERTION..=FLEET_DELETION if answer == 0 => {
            *of_delta = Some(BTreeSet::from([at]));
            if let Some(own) = &mut taken[slot] {
                own.insert(at);
            }
        }
        _ => {}
    }
}

/// The records by relation and label, and the list that the table shows.
fn seen(fleet: &Fleet, slot: usize) -> Option<(Vec<Record>, Vec<Record>)> {
    let schema = random::decoded(&fleet.schema);
    let table: Table = crate::table::read(&schema, &fleet.slots[slot])?;
    let members = crate::shown::shown(&schema, &table);
    let mut records = table.records.clone();
    let mut list: Vec<Record> =
        table.records.into_iter().zip(members).filter(|pair| pair.1).map(|pair| pair.0).collect();
    for record in &mut list {
        record.flag = 0;
        record.registers.iter_mut().for_each(|register| register.stamp = 0);
    }
    records.sort_by_key(Record::name);
    list.sort_by_key(Record::name);
    Some((records, list))
}

/// Runs one random fleet and compares tables that took in the same edits: equal records and an
/// equal list. Gives the number of comparisons with at least one edit; panics where two differ.
fn fleet_comparisons(random: &mut Random) -> u64 {
    let mut fleet = Fleet::default();
    let mut taken: Vec<Taken> = vec![None; SLOTS];
    let mut of_delta = None;
    let mut waiting = some_fleet(random);
    waiting.reverse();
    let mut compared = 0;
    for at in 0..60 {
        let item = waiting.pop().unwrap_or_else(|| next_of_fleet(random, &fleet));
        let answer = fleet.run(&item).answer;
        track(&mut taken, &mut of_delta, &item, answer, at);
        for a in 0..SLOTS {
            for b in a + 1..SLOTS {
                if taken[a].is_some() && taken[a] == taken[b] {
                    assert_eq!(seen(&fleet, a), seen(&fleet, b), "{:?}", fleet.schema);
                    compared += taken[a].as_ref().map_or(0, |edits| !edits.is_empty() as u64);
                }
            }
        }
    }
    compared
}

#[test]
fn same_edits_same_contents() {
    let mut random = Random::new(3);
    let mut compared = 0;
    for _ in 0..1_500 {
        compared += fleet_comparisons(&mut random);
    }
    assert!(compared > 1_000);
}
