//! How much a join and a merge changed: each word of the sentence, on both sides.

use super::damage::{break_schema, break_table};
use super::items::Items;
use super::sources::accepted_edit;
use crate::label::{counter, label_of, replica, Register, LARGEST_FLAG};
use crate::layout::{CLOCK, HEADER, USED};
use crate::random::{self, Random, Shape};
use crate::schema::Kind;
use crate::table::{self, Record, Table};
use crate::vectors::item::{Item, FLAG_JOIN, MERGE, REGISTER_JOIN};

const JOINS: u8 = 41;
const NOTHING: u8 = 42;
const DELTAS: u8 = 43;
const REFUSED: u8 = 44;
const ALONE: u8 = 45;
const SEVERAL: u8 = 46;
const ADDED: u8 = 47;
const DIRECTIONS: u8 = 48;

/// How many tables each case has.
const ENOUGH: u64 = 24;

/// Pushes a join; it must say whether it changed what stands on the left.
fn join(items: &mut Items, call: u8, words: Vec<u64>, changed: bool) {
    let item = Item { category: JOINS, call, slices: vec![], words };
    assert_eq!(items.tried(&item).results.last(), Some(&(changed as u64)), "{:?}", item);
    items.push_item(item);
}

/// Pushes a merge, from which this answer and this number must come back.
fn merge(items: &mut Items, category: u8, slices: [Vec<u64>; 3], answer: u64, changed: u64) {
    let item = Item { category, call: MERGE, slices: slices.to_vec(), words: vec![] };
    let told = items.tried(&item);
    assert_eq!((told.answer, told.results), (answer, vec![changed]), "{:?}", item);
    items.push_item(item);
}

/// Only the value, only the stamp, both or nothing differs; also in high bits alone.
fn registers(items: &mut Items) {
    let stamps = [(257, 258), (257, 513), (513, 513 + (1 << 40)), ((1 << 48) - 257, (1 << 48) - 1)];
    for (old, new) in stamps {
        for (small, large) in [(0, 1), (5, 5 + (1 << 32)), (u64::MAX - 1, u64::MAX)] {
            let mut push = |before: (u64, u64), other: (u64, u64), changed| {
                let words = vec![before.0, before.1, other.0, other.1];
                join(items, REGISTER_JOIN, words, changed);
            };
            push((small, old), (small, old), false);
            push((small, old), (large, old), true);
            push((large, old), (small, old), false);
            push((small, old), (small, new), true);
            push((small, new), (small, old), false);
            push((small, old), (large, new), true);
            push((large, old), (small, new), true);
            push((small, new), (large, old), false);
            push((0, 0), (small, old), true);
            push((small, old), (0, 0), false);
        }
    }
    join(items, REGISTER_JOIN, vec![0, 0, 0, 0], false);
}

fn flags(items: &mut Items) {
    for flag in [0, 1, 2, 255, 256, 32_767, 65_279] {
        for more in [1, 2, 256] {
            join(items, FLAG_JOIN, vec![flag, flag], false);
            join(items, FLAG_JOIN, vec![flag, flag + more], true);
            join(items, FLAG_JOIN, vec![flag + more, flag], false);
        }
    }
    join(items, FLAG_JOIN, vec![0, LARGEST_FLAG], true);
    join(items, FLAG_JOIN, vec![LARGEST_FLAG, 0], false);
    join(items, FLAG_JOIN, vec![LARGEST_FLAG, LARGEST_FLAG], false);
}

/// An own table with a record at least, and the records of another, which brings nothing at first.
struct Pair<'a> {
    random: &'a mut Random,
    schema: Vec<u64>,
    own: Table,
    other: Vec<Record>,
    /// The counter of the last new label.
    last: u64,
}

impl Pair<'_> {
    /// The other has the same records.
    fn copied(random: &mut Random) -> Pair<'_> {
        let schema = random::schema(random);
        let mut shape = Shape::small(random);
        shape.used = 1 + random.below(7) as usize;
        shape.base = random.pick(&[0, 0, 1_000, 1 << 39]);
        shape.capacity = shape.used;
        let own = random::table(random, &random::decoded(&schema), &shape);
        let (other, last) = (own.records.clone(), own.clock);
        Pair { random, schema, own, other, last }
    }

    /// The other has fewer records, registers and flags, and older ones.
    fn older(random: &mut Random) -> Pair<'_> {
        let mut pair = Pair::copied(random);
        for mut record in std::mem::take(&mut pair.other) {
            let kinds = pair.kinds(&record);
            for (kind, register) in kinds.into_iter().zip(&mut record.registers) {
                *register = pair.older_register(kind, *register);
            }
            if pair.random.chance(1, 2) {
                record.flag = pair.random.below(record.flag + 1);
            }
            if pair.random.chance(3, 4) {
                pair.other.push(record);
            }
        }
        pair
    }

    fn kinds(&self, record: &Record) -> Vec<Kind> {
        let schema = random::decoded(&self.schema);
        schema.relation(record.relation).map_or(vec![], |of| of.kinds.clone())
    }

    /// The same, none, a smaller value under the stamp, or any value under a smaller stamp.
    fn older_register(&mut self, kind: Kind, register: Register) -> Register {
        let (value, stamp) = (register.value, register.stamp);
        let smaller = if kind == Kind::Plain { self.random.below(value.max(1)) } else { 0 };
        match self.random.below(4) {
            0 => Register::default(),
            1 if stamp != 0 => Register { value: smaller, stamp },
            2 if counter(stamp) > 1 => {
                let value = if kind == Kind::Plain { self.random.next() } else { value };
                Register { value, stamp: label_of(counter(stamp) - 1, replica(stamp)) }
            }
            _ => register,
        }
    }

    /// A label above all others so far.
    fn new_label(&mut self) -> u64 {
        self.last += 1 + self.random.below(2);
        label_of(self.last, 1 + self.random.below(255))
    }

    /// A position of the own table.
    fn position(&mut self) -> usize {
        self.random.below(self.own.records.len() as u64) as usize
    }

    /// The other's record with the name of this one; the other gets one without registers if it has
    /// none.
    fn theirs(&mut self, at: usize) -> &mut Record {
        let own = &self.own.records[at];
        let name = own.name();
        if !self.other.iter().any(|record| record.name() == name) {
            let registers = vec![Register::default(); own.registers.len()];
            self.other.push(Record { flag: 0, registers, ..*own });
        }
        self.other.iter_mut().find(|record| record.name() == name).unwrap()
    }

    /// A larger value under the stamp that the own table has; it gets one if it has none.
    fn raise_value(&mut self, at: usize, field: usize) {
        let label = self.new_label();
        let kind = self.kinds(&self.own.records[at])[field];
        let record = &mut self.own.records[at];
        if record.registers[field].stamp == 0 {
            record.registers[field].stamp = record.label;
        }
        let mut raised = record.registers[field];
        raised.value = match kind {
            Kind::Plain => raised.value + 1 + self.random.below(9),
            _ => label,
        };
        self.theirs(at).registers[field] = raised;
    }

    /// A larger stamp over the value that the own table has.
    fn raise_stamp(&mut self, at: usize, field: usize) {
        let (stamp, value) = (self.new_label(), self.own.records[at].registers[field].value);
        self.theirs(at).registers[field] = Register { value, stamp };
    }

    /// A larger stamp and another value: 0, or where it is 0, a larger one.
    fn raise_both(&mut self, at: usize, field: usize) {
        let stamp = self.new_label();
        let value = if self.own.records[at].registers[field].value == 0 { stamp } else { 0 };
        self.theirs(at).registers[field] = Register { value, stamp };
    }

    fn raise_flag(&mut self, at: usize) {
        let flag = self.own.records[at].flag.min(LARGEST_FLAG - 1);
        self.own.records[at].flag = flag;
        let raised = flag + 1 + self.random.below(LARGEST_FLAG - flag).min(self.random.below(3));
        self.theirs(at).flag = raised;
    }

    /// A record that the own table has not. A bare one has flag 0 and no stamps.
    fn add(&mut self, bare: bool) {
        let label = self.new_label();
        let relation = 1 + self.random.below(random::decoded(&self.schema).relations.len() as u64);
        let mut record = Record { relation, label, flag: 0, registers: vec![] };
        let fields = self.kinds(&record).len();
        let register = if bare { Register::default() } else { Register { value: 0, stamp: label } };
        record.registers.resize(fields, register);
        if !bare {
            record.flag = self.random.below(3);
        }
        self.other.push(record);
    }

    /// The schema and the words of both; the own table has room for so many records more.
    fn slices(&mut self, room: usize) -> [Vec<u64>; 3] {
        self.random.shuffle(&mut self.other);
        let decoded = random::decoded(&self.schema);
        let least = random::least_clock(&decoded, &self.other);
        let other = Table {
            capacity: self.other.len() + self.random.below(2) as usize,
            replica: self.random.pick(&[self.own.replica, 4, 255]),
            clock: least + self.random.below(3),
            records: self.other.clone(),
        };
        self.own.capacity = self.own.records.len() + room;
        [self.schema.clone(), self.own.words(), other.words()]
    }

    /// How many records the other has that the own table has not.
    fn missing(&self) -> usize {
        let positions = self.own.positions();
        self.other.iter().filter(|record| !positions.contains_key(&record.name())).count()
    }

    /// Pushes the merge, with room.
    fn push(&mut self, items: &mut Items, category: u8, changed: u64) {
        let room = self.missing() + self.random.below(2) as usize;
        let slices = self.slices(room);
        merge(items, category, slices, 0, changed);
    }
}

/// A copy of itself, a larger clock alone, and what is older than the own table.
fn nothing(items: &mut Items, random: &mut Random) {
    for _ in 0..ENOUGH {
        let mut pair = Pair::copied(random);
        let [schema, own, _] = pair.slices(0);
        merge(items, NOTHING, [schema.clone(), own.clone(), own.clone()], 0, 0);
        let mut raised = own.clone();
        raised[CLOCK] += 1 + pair.random.below(9);
        merge(items, NOTHING, [schema.clone(), own.clone(), raised.clone()], 0, 0);
        let mut empty = raised[..HEADER].to_vec();
        empty[USED..].fill(0);
        merge(items, NOTHING, [schema, own, empty], 0, 0);
        Pair::older(random).push(items, NOTHING, 0);
    }
}

/// A delta met for the first time, which has changed records alone, and for the second.
fn deltas(items: &mut Items, random: &mut Random) {
    for _ in 0..2 * ENOUGH {
        let (schema, words, own, delta) = accepted_edit(random);
        merge(items, DELTAS, [schema.clone(), words, delta.clone()], 0, delta[USED]);
        merge(items, DELTAS, [schema, own, delta], 0, 0);
    }
}

/// A merge that would change and add records, refused: 11, 4, 3, 2 and 1.
fn refused(items: &mut Items, random: &mut Random) {
    for _ in 0..ENOUGH {
        let mut pair = Pair::older(random);
        let at = pair.position();
        pair.raise_flag(at);
        for _ in 0..1 + pair.random.below(3) {
            let bare = pair.random.chance(1, 4);
            pair.add(bare);
        }
        let missing = pair.missing();
        merge(items, REFUSED, pair.slices(missing - 1), 11, 0);
        let slices = pair.slices(missing);
        for (answer, at) in [(4, 2), (3, 1)] {
            let mut damaged = slices.clone();
            let decoded = random::decoded(&slices[0]);
            while table::read(&decoded, &damaged[at]).is_some() {
                break_table(pair.random, &slices[0], &mut damaged[at]);
            }
            merge(items, REFUSED, damaged, answer, 0);
        }
        let [mut broken, own, other] = slices.clone();
        while crate::schema::read(&broken).is_some() {
            break_schema(pair.random, &mut broken);
        }
        merge(items, REFUSED, [broken, own, other], 2, 0);
        let [schema, own, mut short] = slices;
        short.pop();
        merge(items, REFUSED, [schema, own, short], 1, 0);
    }
}

/// A value alone, a stamp alone, a flag alone, of one old record.
fn alone(items: &mut Items, random: &mut Random) {
    for round in 0..3 * ENOUGH {
        let mut pair = if round % 2 == 0 { Pair::copied(random) } else { Pair::older(random) };
        let at = pair.position();
        let field = pair.random.below(pair.own.records[at].registers.len() as u64) as usize;
        match round % 3 {
            0 => pair.raise_value(at, field),
            1 => pair.raise_stamp(at, field),
            _ => pair.raise_flag(at),
        }
        pair.push(items, ALONE, 1);
    }
}

/// All registers of one old record or of several; some with their flags, at least those that have
/// one register.
fn several(items: &mut Items, random: &mut Random) {
    for round in 0..2 * ENOUGH {
        let mut pair = if round % 4 < 2 { Pair::copied(random) } else { Pair::older(random) };
        let used = pair.own.records.len();
        let changed = if round % 2 == 0 { 1 } else { 1 + pair.random.below(used as u64) };
        let mut positions: Vec<usize> = (0..used).collect();
        pair.random.shuffle(&mut positions);
        for at in &positions[..changed as usize] {
            for field in 0..pair.own.records[*at].registers.len() {
                match pair.random.below(3) {
                    0 => pair.raise_value(*at, field),
                    1 => pair.raise_stamp(*at, field),
                    _ => pair.raise_both(*at, field),
                }
            }
            if pair.own.records[*at].registers.len() == 1 || pair.random.chance(1, 2) {
                pair.raise_flag(*at);
            }
        }
        pair.push(items, SEVERAL, changed);
    }
}

/// Added records: one with flag 0 and no stamps, several of either sort, and changed ones beside.
fn added(items: &mut Items, random: &mut Random) {
    for _ in 0..ENOUGH {
        let mut pair = Pair::older(random);
        pair.add(true);
        pair.push(items, ADDED, 1);
        let more = pair.random.below(4);
        for _ in 0..more {
            let bare = pair.random.chance(1, 3);
            pair.add(bare);
        }
        pair.push(items, ADDED, 1 + more);
        let at = pair.position();
        pair.raise_flag(at);
        pair.push(items, ADDED, 2 + more);
    }
}

/// Both directions of two tables, of which each may have what the other has not.
fn directions(items: &mut Items, random: &mut Random) {
    for _ in 0..ENOUGH {
        let mut pair = Pair::copied(random);
        let (mut into_own, mut into_other) = (0, 0);
        for at in 0..pair.own.records.len() {
            let name = pair.own.records[at].name();
            let (own_newer, other_newer) = (pair.random.chance(1, 3), pair.random.chance(1, 3));
            if own_newer {
                let stamp = pair.new_label();
                pair.own.records[at].registers[0].stamp = stamp;
                into_other += 1;
            }
            if other_newer {
                pair.raise_flag(at);
                into_own += 1;
            }
            if !own_newer && !other_newer && pair.random.chance(1, 3) {
                pair.other.retain(|record| record.name() != name);
                into_other += 1;
            }
        }
        while into_own == into_other || pair.random.chance(1, 2) {
            pair.add(false);
            into_own += 1;
        }
        pair.own.clock = pair.last;
        let room = pair.missing();
        let [schema, own, mut other] = pair.slices(room);
        other.resize(own.len(), 0);
        merge(items, DIRECTIONS, [schema.clone(), own.clone(), other.clone()], 0, into_own);
        merge(items, DIRECTIONS, [schema, other, own], 0, into_other);
    }
}

pub fn changes(items: &mut Items, random: &mut Random) {
    registers(items);
    flags(items);
    nothing(items, random);
    deltas(items, random);
    refused(items, random);
    alone(items, random);
    several(items, random);
    added(items, random);
    directions(items, random);
}
