//! The herd book's search for a shown milking.

use super::book::damaged;
use super::book_tables::Made;
use super::items::Items;
use crate::book::{COW, KINDS, MILKING, ROBOT};
use crate::cases::{record, table_of};
use crate::label::{label_of, Register, LABELS};
use crate::layout::{self, CAPACITY, RECORD};
use crate::random::Random;
use crate::vectors::item::{Item, BOOK_FIND};

const FOUND: u8 = 57;
const HIDDEN: u8 = 58;
const OTHER_KINDS: u8 = 59;
const NO_MILKING: u8 = 60;
const REFUSED: u8 = 61;
const CAPACITIES: u8 = 62;

/// How many tables each case has.
const ENOUGH: u64 = 24;
const FEW: u64 = 4;

/// Pushes a search, from which this answer and this index must come back.
fn push(items: &mut Items, category: u8, own: &[u64], label: u64, answer: u64, index: u64) {
    let (slices, words) = (vec![own.to_vec()], vec![label]);
    let item = Item { category, call: BOOK_FIND, slices, words };
    let told = items.tried(&item);
    assert_eq!((told.answer, told.results), (answer, vec![index]), "{:?}", item);
    items.push_item(item);
}

/// A table with milkings that are shown, and one of them.
fn milked(random: &mut Random) -> (Made<'_>, u64) {
    let mut made = Made::stocked(random);
    for _ in 0..made.random.below(3) {
        made.some(MILKING);
    }
    let label = made.some(MILKING);
    (made, label)
}

/// Each shown milking of a table is found, beside one that is struck off.
fn found(items: &mut Items, random: &mut Random) {
    for _ in 0..ENOUGH {
        let (mut made, _) = milked(random);
        let values = made.values(MILKING);
        made.add(MILKING, 1, &values);
        let room = made.random.below(2) as usize;
        for label in made.shown(MILKING) {
            let (own, index) = made.words(room, false, (MILKING, label));
            push(items, FOUND, &own, label, 0, index);
        }
    }
}

/// Why a milking is not shown.
#[derive(Clone, Copy)]
enum Hidden {
    Struck,
    Incomplete,
    CowStruck,
    CowWithoutGroup,
    CowConflicts,
    NoCow,
    NoRobot,
    RobotIncomplete,
}

const WAYS: [Hidden; 8] = [
    Hidden::Struck,
    Hidden::Incomplete,
    Hidden::CowStruck,
    Hidden::CowWithoutGroup,
    Hidden::CowConflicts,
    Hidden::NoCow,
    Hidden::NoRobot,
    Hidden::RobotIncomplete,
];

/// Adds a milking that is not shown; gives its label.
fn add_hidden(made: &mut Made, way: Hidden) -> u64 {
    let (cow, robot, lost) = (made.some(COW), made.some(ROBOT), made.new_label());
    let mut values = made.values(MILKING);
    values[..2].copy_from_slice(&[cow, robot]);
    match way {
        Hidden::CowStruck => made.record(COW, cow).flag = 1,
        Hidden::CowWithoutGroup => made.record(COW, cow).registers[2].value = lost,
        Hidden::CowConflicts => {
            let mut same = made.values(COW);
            let column = made.random.below(2) as usize;
            same[column] = made.record(COW, cow).registers[column].value;
            values[0] = made.add(COW, 0, &same);
        }
        Hidden::NoCow => values[0] = lost,
        Hidden::NoRobot => values[1] = lost,
        Hidden::RobotIncomplete => {
            made.record(ROBOT, robot).registers[0] = Register::default();
        }
        Hidden::Struck | Hidden::Incomplete => {}
    }
    let label = made.add(MILKING, matches!(way, Hidden::Struck) as u64, &values);
    if matches!(way, Hidden::Incomplete) {
        let column = made.random.below(5) as usize;
        made.record(MILKING, label).registers[column] = Register::default();
    }
    label
}

fn hidden(items: &mut Items, random: &mut Random) {
    for way in WAYS {
        for _ in 0..FEW {
            let (mut made, _) = milked(random);
            let label = add_hidden(&mut made, way);
            let (own, _) = made.words(0, false, (MILKING, label));
            push(items, HIDDEN, &own, label, 0, 0);
        }
    }
}

/// A shown record of another kind has the label: alone, beside a milking that is struck off, and
/// beside one that is shown.
fn other_kinds(items: &mut Items, random: &mut Random) {
    for kind in KINDS.into_iter().filter(|kind| *kind != MILKING) {
        for _ in 0..FEW {
            let (mut made, _) = milked(random);
            let label = made.some(kind);
            let (own, _) = made.words(1, false, (kind, label));
            push(items, OTHER_KINDS, &own, label, 0, 0);
            let values = made.values(MILKING);
            made.records.push(record(MILKING, label, 1, &values));
            let (own, index) = made.words(1, false, (MILKING, label));
            push(items, OTHER_KINDS, &own, label, 0, 0);
            let mut own = own;
            own[layout::record(index as usize - 1) + layout::FLAG] = 2;
            push(items, OTHER_KINDS, &own, label, 0, index);
        }
    }
}

/// 0, numbers that are no labels, and labels that are unknown. Some are a shown milking's label plus
/// a multiple of 2^48, or another shown record's label plus 2^48 times its kind less a milking's.
fn no_milking(items: &mut Items, random: &mut Random) {
    for _ in 0..FEW {
        let (mut made, label) = milked(random);
        let mut numbers = vec![0, made.no_label(), made.no_label(), made.new_label()];
        numbers.extend([label / 256 * 256, label % 256, label + 256, label - 256, u64::MAX]);
        for times in [1, 2, 4, 255, 1 + made.random.below(65_535), 65_535] {
            numbers.push(label + LABELS * times);
        }
        for kind in KINDS.into_iter().filter(|kind| *kind != MILKING) {
            let other = made.some(kind);
            let times = kind.wrapping_sub(MILKING);
            numbers.push(other.wrapping_add(LABELS.wrapping_mul(times)));
        }
        let milkings = made.shown(MILKING);
        numbers.retain(|number| !milkings.contains(number));
        let (own, _) = made.words(0, false, (MILKING, label));
        for number in numbers {
            push(items, NO_MILKING, &own, number, 0, 0);
        }
    }
}

/// A damaged table, a wrong length, and both.
fn refused(items: &mut Items, random: &mut Random) {
    for round in 0..ENOUGH {
        let (mut made, label) = milked(random);
        let (own, _) = made.words(1, false, (MILKING, label));
        let broken = damaged(made.random, &own, 0);
        push(items, REFUSED, &broken, label, 3, 0);
        let mut wrong = if round % 2 == 0 { own } else { broken };
        let length = wrong.len();
        let lengths = [0, layout::HEADER - 1, length - 1, length + 1, length + RECORD - 1];
        wrong.resize(made.random.pick(&lengths), 0);
        push(items, REFUSED, &wrong, label, 1, 0);
    }
}

/// Capacity 0; 4,096, with few records and with as many milkings; and one more.
fn capacities(items: &mut Items, random: &mut Random) {
    for _ in 0..FEW {
        let (none, _) = Made::new(random).words(0, false, (MILKING, 0));
        push(items, CAPACITIES, &none, label_of(1, 1), 0, 0);
        let (mut made, label) = milked(random);
        let room = made.most_room();
        let (own, index) = made.words(room, false, (MILKING, label));
        push(items, CAPACITIES, &own, label, 0, index);
    }
    let most = CAPACITY as u64;
    let milking = |at: u64| record(MILKING, label_of(most - at, 1), 0, &[0; 5]);
    let mut own = table_of(most, (0..most).map(milking).collect()).words();
    push(items, CAPACITIES, &own, label_of(1, 1), 0, most);
    own.truncate(layout::record(1));
    own.resize(layout::table(CAPACITY + 1), 0);
    push(items, CAPACITIES, &own, label_of(1, 1), 1, 0);
}

pub fn finds(items: &mut Items, random: &mut Random) {
    found(items, random);
    hidden(items, random);
    other_kinds(items, random);
    no_milking(items, random);
    refused(items, random);
    capacities(items, random);
}
