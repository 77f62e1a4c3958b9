//! Fleets: calls over several tables that stay from item to item.

use super::items::Items;
use super::sources::{capacity, random_edit};
use crate::label::LARGEST_COUNTER;
use crate::layout::{self, CLOCK, FLAG, REPLICA, USED};
use crate::random::{self, Random};
use crate::vectors::edit::Edit;
use crate::vectors::fleet::{Fleet, MOST_TABLES, SLOTS};
use crate::vectors::item::{
    Item, FLEET_BEGIN, FLEET_COPY, FLEET_COPY_DELTA, FLEET_DELETION, FLEET_INSERTION, FLEET_MARKS,
    FLEET_MERGE, FLEET_SPOIL, FLEET_START, FLEET_UPDATE, FLEET_WALK,
};

/// The category of the fleets.
const CATEGORY: u8 = 25;

fn item(call: u8, slices: Vec<Vec<u64>>, words: Vec<u64>) -> Item {
    Item { category: CATEGORY, call, slices, words }
}

/// The first items of a fleet: its tables, of which most are started.
pub fn begin(random: &mut Random) -> Vec<Item> {
    let tables = 3 + random.below(3);
    let mut numbers = vec![tables];
    for slot in 0..MOST_TABLES as u64 {
        let records = random.pick(&[0, 3, 8, 12, 16, 24, 24, 24]);
        numbers.push(if slot < tables { records } else { 0 });
    }
    let mut items = vec![item(FLEET_BEGIN, vec![random::schema(random)], numbers)];
    let late = random.chance(1, 5);
    for slot in 0..tables {
        if random.chance(9, 10) {
            items.push(item(FLEET_START, vec![], vec![slot, random.pick(&[1, 1, 2, 3, 255])]));
            if late {
                let clock = LARGEST_COUNTER - random.below(4);
                items.push(item(FLEET_SPOIL, vec![], vec![slot, CLOCK as u64, clock]));
            }
        }
    }
    items
}

/// A flag near the end for a record of a table of the fleet, with the parity that it has.
fn high_flag(random: &mut Random, fleet: &Fleet, slot: u64) -> Option<Item> {
    let table = &fleet.slots[slot as usize];
    let used = table[USED].min(capacity(table) as u64);
    let at = layout::record(random.below(used) as usize) + FLAG;
    let flag = table.get(at)?;
    Some(item(FLEET_SPOIL, vec![], vec![slot, at as u64, 65_534 + flag % 2]))
}

fn edit_item(slot: u64, edit: Edit) -> Item {
    match edit {
        Edit::Insertion { relation, values } => {
            item(FLEET_INSERTION, vec![values], vec![slot, relation])
        }
        Edit::Update { index, field, value } => {
            item(FLEET_UPDATE, vec![], vec![slot, index, field, value])
        }
        Edit::Deletion { index } => item(FLEET_DELETION, vec![], vec![slot, index]),
    }
}

fn walk_item(slot: u64, place: u64) -> Item {
    item(FLEET_WALK, vec![], vec![slot, place])
}

/// The next item of a fleet.
pub fn next(random: &mut Random, fleet: &Fleet) -> Item {
    let table = random.below(fleet.tables);
    let copies = MOST_TABLES as u64..SLOTS as u64;
    let written: Vec<u64> =
        copies.clone().filter(|slot| fleet.slots[*slot as usize][REPLICA] != 0).collect();
    let mut copy = copies.start + random.below(copies.end - copies.start);
    if !written.is_empty() && random.chance(3, 4) {
        copy = random.pick(&written);
    }
    match random.below(32) {
        0 => item(FLEET_START, vec![], vec![table, random.pick(&[0, 1, 2, 3, 256])]),
        1..=3 => item(FLEET_COPY, vec![], vec![table, copy]),
        4..=6 => item(FLEET_COPY_DELTA, vec![], vec![copy]),
        7 if random.chance(1, 3) => {
            let position = random.below(fleet.slots[copy as usize].len() as u64);
            item(FLEET_SPOIL, vec![], vec![copy, position, random.pick(&[1, 256, u64::MAX])])
        }
        7 if fleet.tables == 5 => {
            high_flag(random, fleet, table).unwrap_or(item(FLEET_MARKS, vec![], vec![table]))
        }
        7..=9 => item(FLEET_MERGE, vec![], vec![table, random.below(fleet.tables)]),
        10..=14 => item(FLEET_MERGE, vec![], vec![table, copy]),
        15..=16 => item(FLEET_MARKS, vec![], vec![table]),
        17 => walk_item(table, random.below(5)),
        _ => {
            let own = &fleet.slots[table as usize];
            edit_item(table, random_edit(random, &fleet.schema, own))
        }
    }
}

/// A next item of the fleet; of a few, one whose answer is rare so far.
fn next_rare(items: &Items, random: &mut Random) -> Item {
    let first = next(random, items.fleet());
    for _ in 0..8 {
        let item = next(random, items.fleet());
        let answer = items.tried(&item).answer;
        if answer != 0 && items.count_of(item.call, answer) < 30 {
            return item;
        }
    }
    first
}

/// One fleet: its beginning, then calls; marks are followed by a walk over them.
fn fleet(items: &mut Items, random: &mut Random) {
    for item in begin(random) {
        items.push_item(item);
    }
    for _ in 0..40 {
        let item = next_rare(items, random);
        let (call, slot) = (item.call, item.words[0]);
        items.push_item(item);
        if call == FLEET_MARKS {
            let mut place = 0;
            for _ in 0..1 + random.below(6) {
                let step = walk_item(slot, place);
                place = items.tried(&step).results[1];
                items.push_item(step);
            }
        }
    }
}

pub fn fleets(items: &mut Items, random: &mut Random) {
    let mut made = 0;
    while made < 300 || (made < 600 && !items.all_have(FLEET_BEGIN..=FLEET_WALK, 20)) {
        fleet(items, random);
        made += 1;
    }
}
