//! Fleets in which records in a line come together by merges: each table enters one of them.

use super::items::Items;
use super::lines::{schemas, Line, Order, LINE, TARGET};
use crate::layout::{self, LABEL, RELATION, USED};
use crate::random::Random;
use crate::vectors::fleet::MOST_TABLES;
use crate::vectors::item::{
    Item, FLEET_BEGIN, FLEET_COPY_DELTA, FLEET_DELETION, FLEET_INSERTION, FLEET_MARKS, FLEET_MERGE,
    FLEET_START, FLEET_UPDATE, FLEET_WALK,
};

const CATEGORY: u8 = 87;

/// How many fleets there are.
const FLEETS: u64 = 8;

/// The slot of the copies.
const COPY: u64 = MOST_TABLES as u64;

/// Pushes an item, from which this answer must come back.
fn push(items: &mut Items, call: u8, values: &[u64], words: &[u64], answer: u64) {
    let slices = if call == FLEET_INSERTION { vec![values.to_vec()] } else { vec![] };
    let item = Item { category: CATEGORY, call, slices, words: words.to_vec() };
    assert_eq!(items.tried(&item).answer, answer, "{:?}", item);
    items.push_item(item);
}

/// The relation and the label of a record of a table.
fn name(items: &Items, slot: u64, index: u64) -> (u64, u64) {
    let (table, begin) = (&items.fleet().slots[slot as usize], layout::record(index as usize - 1));
    (table[begin + RELATION], table[begin + LABEL])
}

/// The index of a record in line.
fn index(items: &Items, slot: u64, label: u64) -> u64 {
    let used = items.fleet().slots[slot as usize][USED];
    (1..=used).find(|index| name(items, slot, *index) == (LINE, label)).unwrap_or(0)
}

/// Begins the fleet: each table enters some targets and a record in line, which gets its label.
fn begin(items: &mut Items, line: &mut Line) {
    let tables = line.length as u64;
    let mut numbers = vec![tables];
    numbers.extend((0..COPY).map(|slot| if slot < tables { 24 } else { 0 }));
    items.push(CATEGORY, FLEET_BEGIN, vec![line.schema.clone()], numbers);
    let mut replicas: Vec<u64> = (1..=tables).collect();
    line.random.shuffle(&mut replicas);
    for (slot, replica) in (0..).zip(replicas) {
        push(items, FLEET_START, &[], &[slot, replica], 0);
        for more in 0..line.random.below(3) {
            push(items, FLEET_INSERTION, &[10 * slot + more], &[slot, TARGET], 0);
        }
        let values = values(line, line.classes[slot as usize].map(|class| class.unwrap_or(0)));
        push(items, FLEET_INSERTION, &values, &[slot, LINE], 0);
        let used = items.fleet().slots[slot as usize][USED];
        line.records[slot as usize].label = name(items, slot, used).1;
    }
}

/// The values of a record with these classes and an empty reference.
fn values(line: &mut Line, classes: [usize; 2]) -> Vec<u64> {
    let mut values = line.values(classes);
    if let Some(field) = line.free_reference() {
        values[field] = 0;
    }
    values
}

/// One table takes in all others, in any order, and they take it in.
fn meet(items: &mut Items, line: &mut Line) {
    let mut slots: Vec<u64> = (0..line.length as u64).collect();
    line.random.shuffle(&mut slots);
    for other in &slots[1..] {
        push(items, FLEET_MERGE, &[], &[slots[0], *other], 0);
    }
    for other in &slots[1..] {
        push(items, FLEET_MERGE, &[], &[*other, slots[0]], 0);
    }
}

/// Each table is listed; the records in line are as the line tells.
fn list(items: &mut Items, line: &Line) {
    let shown = line.shown();
    let records = line.records.iter().zip(shown).filter(|(_, shown)| *shown);
    let mut expected: Vec<u64> = records.map(|(record, _)| record.label).collect();
    expected.sort();
    for slot in 0..line.length as u64 {
        push(items, FLEET_MARKS, &[], &[slot], 0);
        let (mut place, mut listed) = (0, Vec::new());
        loop {
            let words = vec![slot, place];
            let item = Item { category: CATEGORY, call: FLEET_WALK, slices: vec![], words };
            let next = items.tried(&item).results[1];
            items.push_item(item);
            if next == place {
                break;
            }
            place = next;
            listed.push(name(items, slot, place));
        }
        let in_line = listed.into_iter().filter(|(relation, _)| *relation == LINE);
        assert_eq!(in_line.map(|(_, label)| label).collect::<Vec<u64>>(), expected);
    }
}

/// What conflicts with a dropped record is refused: a new record, and a kept one that gets the value
/// it has.
fn conflicts(items: &mut Items, line: &mut Line, slot: u64) {
    let (kept, length) = (line.kept(), line.length);
    for (key, class) in (0..2).flat_map(|key| (0..=length).map(move |class| (key, class))) {
        let having = line.having(key, class);
        if !having.is_empty() && having.iter().all(|at| !kept[*at]) {
            let mut classes = [line.free_class(); 2];
            classes[key] = class;
            let values = values(line, classes);
            push(items, FLEET_INSERTION, &values, &[slot, LINE], 9);
        }
        if having.len() > 1 {
            let at = having.into_iter().find(|at| kept[*at]);
            if let Some(at) = at {
                let (field, index) =
                    (line.telling(key), index(items, slot, line.records[at].label));
                let words = [slot, index, field as u64 + 1, line.value(field, class)];
                push(items, FLEET_UPDATE, &[], &words, 9);
            }
        }
    }
}

/// The oldest record in line is deleted in one table, and all others take in the delta.
fn delete_oldest(items: &mut Items, line: &mut Line, slot: u64) {
    let standing = (0..line.length).filter(|at| line.stands[*at]);
    let Some(at) = standing.min_by_key(|at| line.records[*at].label) else {
        return;
    };
    let index = index(items, slot, line.records[at].label);
    push(items, FLEET_DELETION, &[], &[slot, index], 0);
    push(items, FLEET_COPY_DELTA, &[], &[COPY], 0);
    for other in (0..line.length as u64).filter(|other| *other != slot) {
        push(items, FLEET_MERGE, &[], &[other, COPY], 0);
    }
    line.stands[at] = false;
}

/// The records in line meet, then the oldest goes.
fn fleet(items: &mut Items, random: &mut Random) {
    let schema = schemas()[random.below(2) as usize].clone();
    let tables = 3 + random.below(3) as usize;
    let mut line = Line::new(random, schema, tables, Order::Rising);
    line.records.truncate(tables);
    begin(items, &mut line);
    meet(items, &mut line);
    list(items, &line);
    let slot = line.random.below(tables as u64);
    conflicts(items, &mut line, slot);
    delete_oldest(items, &mut line, slot);
    list(items, &line);
}

pub fn loser_fleets(items: &mut Items, random: &mut Random) {
    for _ in 0..FLEETS {
        fleet(items, random);
    }
}
