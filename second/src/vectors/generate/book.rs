//! The herd book's entries, changes and strikes: each answer of each kind, and records of another
//! kind.

use super::book_tables::{fields, keys, names, names_by_abort, Made};
use super::damage::break_table;
use super::items::Items;
use super::sources::delta_words;
use crate::book::{self, CLEANING, COW, GROUP, KINDS, MILKING, ROBOT, TREATMENT};
use crate::label::Register;
use crate::layout::{self, FIELDS, RECORD, USED};
use crate::random::{self, Random};
use crate::schema::Kind;
use crate::table;
use crate::vectors::item::{Item, BOOK_CHANGE, BOOK_ENTER, BOOK_STRIKE};

const ENTERED: u8 = 49;
const EMPTY: u8 = 50;
const EDITED: u8 = 51;
const REFUSED: u8 = 52;
const ORDER: u8 = 53;
const OTHER_KIND: u8 = 54;
const REFUSED_BEFORE: u8 = 55;
const REFUSED_LATER: u8 = 56;
const CAPACITIES: u8 = 62;

const WRONG_LENGTH: u64 = 1;
const DAMAGED: u64 = 3;
const NOT_SHOWN: u64 = 6;

/// How many items each answer of each call has for each kind.
const ENOUGH: u64 = 20;

/// The refusals of a call for a kind: without references there is no 8, without keys no 9, and no
/// 13 where nothing is named by abort. Only groups and robots are named by abort.
fn refusals(call: u8, kind: u64) -> Vec<u64> {
    let all: &[u64] = match (call, kind) {
        (BOOK_ENTER, GROUP | ROBOT) => &[1, 3, 9, 11, 12],
        (BOOK_ENTER, COW) => &[1, 3, 7, 8, 9, 11, 12, 13],
        (BOOK_ENTER, TREATMENT) => &[1, 3, 7, 8, 11, 12],
        (BOOK_ENTER, _) => &[1, 3, 7, 8, 11, 12, 13],
        (BOOK_CHANGE, GROUP | ROBOT) => &[1, 3, 6, 7, 9, 12],
        (BOOK_CHANGE, COW) => &[1, 3, 6, 7, 8, 9, 12, 13],
        (BOOK_CHANGE, TREATMENT) => &[1, 3, 6, 7, 8, 12],
        (BOOK_CHANGE, _) => &[1, 3, 6, 7, 8, 12, 13],
        (_, GROUP | ROBOT) => &[1, 3, 6, 10],
        (_, COW | MILKING | CLEANING) => &[1, 3, 6, 13],
        _ => &[1, 3, 6],
    };
    all.to_vec()
}

/// A call in the making.
struct Attempt<'a> {
    made: Made<'a>,
    call: u8,
    /// The kind of the record that is entered, or that is there.
    kind: u64,
    /// The label of the record that is there.
    label: u64,
    /// The values of an entry.
    values: Vec<u64>,
    /// The field and the value of a change.
    field: u64,
    value: u64,
    room: usize,
    clock_at_end: bool,
}

impl Attempt<'_> {
    /// A call that is accepted.
    fn new(random: &mut Random, call: u8, kind: u64) -> Attempt<'_> {
        let made = Made::stocked(random);
        let (values, room) = (vec![0; fields(kind).len()], 1);
        let (label, field, value, clock_at_end) = (0, 0, 0, false);
        let mut attempt =
            Attempt { made, call, kind, label, values, field, value, room, clock_at_end };
        if call != BOOK_ENTER {
            attempt.room = attempt.made.random.below(2) as usize;
            attempt.label = attempt.made.some(kind);
            attempt.name_cow();
        }
        if call != BOOK_STRIKE {
            attempt.set_free();
        }
        attempt
    }

    /// A value for each field of an entry, and for some field of a change.
    fn set_free(&mut self) {
        for (column, field) in fields(self.kind).into_iter().enumerate() {
            if self.call == BOOK_ENTER || self.field == 0 || self.made.random.chance(1, 2) {
                let value = self.free(column, field);
                self.set(column, value);
            }
        }
    }

    /// A cow may have a milking and a treatment.
    fn name_cow(&mut self) {
        for kind in [MILKING, TREATMENT] {
            if self.kind == COW && self.made.random.chance(2, 3) {
                let mut values = self.made.values(kind);
                values[0] = self.label;
                self.made.add(kind, 0, &values);
            }
        }
    }

    /// The value of the entry's or of the change's field.
    fn set(&mut self, column: usize, value: u64) {
        self.values[column] = value;
        self.field = column as u64 + 1;
        self.value = value;
    }

    /// A value that is accepted: a new one, the one that is there, a struck record's, or one of
    /// another column or of another kind.
    fn free(&mut self, column: usize, field: Kind) -> u64 {
        if self.label != 0 && self.made.random.chance(1, 8) {
            return self.made.record(self.kind, self.label).registers[column].value;
        }
        if let Some(target) = field.target() {
            return self.made.reference(target);
        }
        match self.made.random.below(6) {
            0 => {
                let values = self.made.values(self.kind);
                self.made.add(self.kind, 1, &values);
                values[column]
            }
            1 => {
                let other = self.made.random.pick(&[GROUP, ROBOT, COW]);
                let values = self.made.values(other);
                self.made.add(other, 0, &values);
                match (other == self.kind, other) {
                    (true, COW) => values[1 - column.min(1)],
                    (true, _) => self.made.new_number(),
                    (false, _) => values[0],
                }
            }
            _ => self.made.new_number(),
        }
    }

    /// A number of a standing record of this kind, which is shown, or a cow without her group.
    fn taken(&mut self, column: usize) -> u64 {
        let mut values = self.made.values(self.kind);
        if self.kind == COW && self.made.random.chance(1, 3) {
            values[2] = self.made.new_label();
        }
        self.made.add(self.kind, 0, &values);
        values[column]
    }

    /// A field that there is not.
    fn no_field(&mut self) {
        let beyond = fields(self.kind).len() as u64 + 1;
        self.field = self.made.random.pick(&[0, beyond, FIELDS as u64 + 1, u64::MAX]);
    }

    /// The flag of what is named by abort cannot be redone: the entry names it, the change names it
    /// instead of another or another instead of it, the struck record names it.
    fn name_spent(&mut self) {
        let Some((column, target)) = names_by_abort(self.kind) else {
            return;
        };
        let spent = self.made.spent(target);
        if self.call == BOOK_ENTER || self.call == BOOK_CHANGE && self.made.random.chance(1, 2) {
            return self.set(column, spent);
        }
        let (kind, label) = (self.kind, self.label);
        self.made.record(kind, label).registers[column] = Register { value: spent, stamp: label };
        let other = if self.made.random.chance(1, 2) { 0 } else { self.made.some(target) };
        self.set(column, other);
    }

    /// Gives a reason for a refusal above 3.
    fn spoil(&mut self, refusal: u64) {
        let names = names(self.kind);
        let named = names.len() as u64;
        match refusal {
            NOT_SHOWN => self.made.hide(self.kind, self.label),
            7 if named == 0 || self.call == BOOK_CHANGE && self.made.random.chance(1, 2) => {
                self.no_field()
            }
            7 => {
                let (column, _) = names[self.made.random.below(named) as usize];
                let value = self.made.no_label();
                self.set(column, value);
            }
            8 => {
                let (column, target) = names[self.made.random.below(named) as usize];
                let value = self.made.hidden(target);
                self.set(column, value);
            }
            9 => {
                let column = self.made.random.pick(&keys(self.kind));
                let value = self.taken(column);
                self.set(column, value);
            }
            10 => self.made.hold(self.kind, self.label),
            11 => self.room = 0,
            12 => self.clock_at_end = true,
            _ => self.name_spent(),
        }
    }

    /// The item, asked for a kind.
    fn item(mut self, category: u8, asked: u64, refusals: &[u64]) -> Item {
        let name = (self.kind, self.label);
        let (mut own, mut index) = self.made.words(self.room, self.clock_at_end, name);
        let random = self.made.random;
        let mut delta = delta_words(random);
        if refusals.contains(&DAMAGED) {
            own = damaged(random, &own, index);
        }
        if refusals.contains(&WRONG_LENGTH) {
            let ways = if self.call == BOOK_ENTER { 2 } else { 3 };
            match random.below(ways) {
                0 => delta.resize(wrong_delta(random), 0),
                1 => own.resize(own.len() - 1 + 2 * random.below(2) as usize, 0),
                _ => index = random.pick(&[0, own[USED].saturating_add(1), u64::MAX]),
            }
        }
        let (mut slices, mut words) = (vec![own, delta], vec![asked]);
        match self.call {
            BOOK_ENTER => slices.push(self.values),
            BOOK_CHANGE => words.extend([index, self.field, self.value]),
            _ => words.push(index),
        }
        Item { category, call: self.call, slices, words }
    }
}

/// A wrong length of a delta.
fn wrong_delta(random: &mut Random) -> usize {
    let right = layout::DELTA;
    random.pick(&[0, right - RECORD, right - 1, right + 1, right + RECORD])
}

/// The table with a rule broken; the index is still one.
pub fn damaged(random: &mut Random, own: &[u64], index: u64) -> Vec<u64> {
    let schema = book::schema();
    loop {
        let mut words = own.to_vec();
        break_table(random, &schema, &mut words);
        let is_index = index == 0 || table::is_index(&words, index);
        if is_index && table::read(&random::decoded(&schema), &words).is_none() {
            return words;
        }
    }
}

/// Pushes a call for a kind on a record of a kind, with these reasons for a refusal. Its answer is
/// the least, where 6 is among them if the kinds differ.
fn push(
    items: &mut Items,
    random: &mut Random,
    category: u8,
    call: u8,
    kinds: (u64, u64),
    refusals: &[u64],
) {
    let (asked, kind) = kinds;
    let mut attempt = Attempt::new(random, call, kind);
    for refusal in refusals.iter().rev().filter(|refusal| **refusal > DAMAGED) {
        attempt.spoil(*refusal);
    }
    let item = attempt.item(category, asked, refusals);
    let of_kind = if asked == kind { None } else { Some(NOT_SHOWN) };
    let answer = refusals.iter().copied().chain(of_kind).min().unwrap_or(0);
    assert_eq!(items.tried(&item).answer, answer, "{:?} {:?}", refusals, item);
    items.push_item(item);
}

/// This refusal, and later ones of the call, one at least if there are any.
fn with_later(random: &mut Random, call: u8, kind: u64, refusal: u64) -> Vec<u64> {
    let later: Vec<u64> = refusals(call, kind).into_iter().filter(|more| *more > refusal).collect();
    let sure = if later.is_empty() { 0 } else { random.pick(&later) };
    let mut all = vec![refusal];
    all.extend(later.into_iter().filter(|more| *more == sure || random.chance(1, 2)));
    all
}

/// Each answer of a call for each kind: accepted, with one reason for a refusal, and with more.
fn answers(items: &mut Items, random: &mut Random, call: u8) {
    for kind in KINDS {
        let category = if call == BOOK_ENTER { ENTERED } else { EDITED };
        for _ in 0..ENOUGH {
            push(items, random, category, call, (kind, kind), &[]);
        }
        for refusal in refusals(call, kind) {
            // Records of another kind have more of 1, 3 and 6.
            let count = match refusal {
                WRONG_LENGTH | DAMAGED if call != BOOK_ENTER => ENOUGH - 5,
                NOT_SHOWN => ENOUGH / 2,
                _ => ENOUGH,
            };
            for round in 0..count {
                let more = with_later(random, call, kind, refusal);
                let all = if round % 2 == 0 { &more[..1] } else { &more[..] };
                let category = if all.len() == 1 { REFUSED } else { ORDER };
                push(items, random, category, call, (kind, kind), all);
            }
        }
    }
}

/// Entries of which some references, or all, are empty.
fn empty(items: &mut Items, random: &mut Random) {
    for kind in [COW, MILKING, MILKING, CLEANING, TREATMENT] {
        for round in 0..8 {
            let mut attempt = Attempt::new(random, BOOK_ENTER, kind);
            let names = names(kind);
            for (at, (column, _)) in names.iter().enumerate() {
                if round % (names.len() as u64 + 1) != at as u64 + 1 {
                    attempt.values[*column] = 0;
                }
            }
            let item = attempt.item(EMPTY, kind, &[]);
            assert_eq!(items.push_item(item), 0);
        }
    }
}

/// Each kind asked with each other kind stored: the library's call would be accepted, is refused
/// before with 1 or 3, or would be refused too.
fn other_kinds(items: &mut Items, random: &mut Random, call: u8) {
    for asked in KINDS {
        for kind in KINDS.into_iter().filter(|kind| *kind != asked) {
            for _ in 0..3 {
                push(items, random, OTHER_KIND, call, (asked, kind), &[]);
            }
            for refusal in refusals(call, kind) {
                let category = if refusal <= DAMAGED { REFUSED_BEFORE } else { REFUSED_LATER };
                push(items, random, category, call, (asked, kind), &[refusal]);
            }
        }
    }
}

/// Capacity 0, where an entry gives 11 and no index is one, and 4,096.
fn capacities(items: &mut Items, random: &mut Random) {
    for kind in KINDS {
        let mut made = Made::new(random);
        let (own, delta) = (made.words(0, false, (kind, 0)).0, vec![0; layout::DELTA]);
        let values = vec![0; fields(kind).len()];
        let slices = vec![own.clone(), delta.clone(), values];
        assert_eq!(items.push(CAPACITIES, BOOK_ENTER, slices, vec![kind]), 11);
        let slices = vec![own, delta];
        assert_eq!(items.push(CAPACITIES, BOOK_CHANGE, slices.clone(), vec![kind, 1, 1, 0]), 1);
        assert_eq!(items.push(CAPACITIES, BOOK_STRIKE, slices, vec![kind, 0]), 1);
        for call in [BOOK_ENTER, [BOOK_CHANGE, BOOK_STRIKE][kind as usize % 2]] {
            let mut attempt = Attempt::new(random, call, kind);
            attempt.room = attempt.made.most_room();
            assert_eq!(items.push_item(attempt.item(CAPACITIES, kind, &[])), 0);
        }
    }
}

pub fn book(items: &mut Items, random: &mut Random) {
    for call in [BOOK_ENTER, BOOK_CHANGE, BOOK_STRIKE] {
        answers(items, random, call);
    }
    empty(items, random);
    for call in [BOOK_CHANGE, BOOK_STRIKE] {
        other_kinds(items, random, call);
    }
    capacities(items, random);
}
