//! Fleets in which treatments of twelve fields and deltas of thirteen records go from table to table.

use super::items::Items;
use super::treatments::{some_relation, Treatments, TARGET};
use crate::layout::{abort, record, DELTA_CAPACITY, FIELDS, LABEL, USED};
use crate::random::Random;
use crate::vectors::fleet::MOST_TABLES;
use crate::vectors::item::{
    Item, FLEET_BEGIN, FLEET_COPY_DELTA, FLEET_DELETION, FLEET_INSERTION, FLEET_MARKS, FLEET_MERGE,
    FLEET_START, FLEET_UPDATE, FLEET_WALK,
};

const CATEGORY: u8 = 118;

/// How many fleets there are.
const FLEETS: u64 = 4;

/// The slot of the copies.
const COPY: u64 = MOST_TABLES as u64;

/// Pushes an item, from which this answer must come back; gives what comes back besides.
fn push(
    items: &mut Items,
    call: u8,
    slices: Vec<Vec<u64>>,
    words: &[u64],
    answer: u64,
) -> Vec<u64> {
    let item = Item { category: CATEGORY, call, slices, words: words.to_vec() };
    items.push_with(answer, item).results
}

fn insert(items: &mut Items, slot: u64, relation: u64, values: &[u64]) -> u64 {
    push(items, FLEET_INSERTION, vec![values.to_vec()], &[slot, relation], 0)[0]
}

/// A table takes in another, or a copy; so many records change.
fn take(items: &mut Items, slot: u64, other: u64, changed: u64) {
    assert_eq!(push(items, FLEET_MERGE, vec![], &[slot, other], 0)[0], changed);
}

/// The index of the record with a label.
fn index(items: &Items, slot: u64, label: u64) -> u64 {
    let table = &items.fleet().slots[slot as usize];
    let has = |index: &u64| table[record(*index as usize - 1) + LABEL] == label;
    (1..=table[USED]).find(has).unwrap_or(0)
}

/// The marks of a table, of which so many are shown, and a walk to the end.
fn list(items: &mut Items, slot: u64, shown: u64) {
    assert_eq!(push(items, FLEET_MARKS, vec![], &[slot], 0)[0], shown);
    let mut place = 0;
    for _ in 0..=shown {
        place = push(items, FLEET_WALK, vec![], &[slot, place], 0)[1];
    }
}

/// Three tables have twelve targets. The first enters a treatment that references all by abort, while
/// the second deletes them. They meet, and a further treatment of the first redoes all; the others
/// take in its delta. The third then empties a field above the eighth, and the first deletes the
/// older treatment.
fn fleet(items: &mut Items, random: &mut Random) {
    let relation = some_relation(random);
    let schema = Treatments::new(random, relation, &[abort(TARGET); FIELDS], [0, 0]).schema;
    push(items, FLEET_BEGIN, vec![schema], &[3, 24, 20, 16, 0, 0], 0);
    let mut replicas = [1, 2, 3];
    random.shuffle(&mut replicas);
    for (slot, replica) in (0..).zip(replicas) {
        push(items, FLEET_START, vec![], &[slot, replica], 0);
    }
    let twelve = FIELDS as u64;
    let mut targets: Vec<u64> = (0..twelve).map(|at| insert(items, 0, TARGET, &[at])).collect();
    take(items, 1, 0, twelve);
    take(items, 2, 0, twelve);
    random.shuffle(&mut targets);
    let older = insert(items, 0, relation, &targets);
    for target in &targets {
        let index = index(items, 1, *target);
        push(items, FLEET_DELETION, vec![], &[1, index], 0);
    }
    take(items, 0, 1, twelve);
    list(items, 0, twelve + 1);
    random.shuffle(&mut targets);
    let label = insert(items, 0, relation, &targets);
    assert_eq!(items.fleet().delta[USED], DELTA_CAPACITY as u64);
    push(items, FLEET_COPY_DELTA, vec![], &[COPY], 0);
    take(items, 1, COPY, twelve + 1);
    take(items, 2, COPY, twelve + 1);
    list(items, 2, twelve + 1);
    let field = random.pick(&[9, 10, 11, 12]);
    let at = index(items, 2, label);
    push(items, FLEET_UPDATE, vec![], &[2, at, field, 0], 0);
    let at = index(items, 0, older);
    push(items, FLEET_DELETION, vec![], &[0, at], 0);
    take(items, 0, 2, 1);
    take(items, 1, 0, 2);
    take(items, 2, 1, 1);
    list(items, 1, twelve + 1);
}

pub fn new_field_fleets(items: &mut Items, random: &mut Random) {
    for _ in 0..FLEETS {
        fleet(items, random);
    }
}
