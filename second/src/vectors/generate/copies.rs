//! Two copies of a table: alike at first, until one gets what the other has not.

use crate::label::{label_of, Register, LARGEST_COUNTER, LARGEST_FLAG};
use crate::random::{self, Random, Shape};
use crate::schema::Kind;
use crate::shown::shown;
use crate::table::{Record, Table};

/// What a copy may have that the other has not. A record's position comes first, then the field.
#[derive(Clone, Copy)]
pub enum News {
    Clock,
    /// A larger value under the stamp of both.
    Value(usize, usize),
    /// A larger stamp over the value of both.
    Stamp(usize, usize),
    /// A larger stamp over another value.
    Both(usize, usize),
    Flag(usize),
    /// A record with a new label.
    Record,
    /// A new record with flag 0 and no stamps.
    Bare,
    /// A record that the other copy loses.
    Kept(usize),
}

/// Each sort of news, of a record's position and a field.
pub const NEWS: [fn(usize, usize) -> News; 7] = [
    |_, _| News::Clock,
    News::Value,
    News::Stamp,
    News::Both,
    |at, _| News::Flag(at),
    |_, _| News::Record,
    |at, _| News::Kept(at),
];

pub struct Copies<'a> {
    pub random: &'a mut Random,
    pub schema: Vec<u64>,
    /// The records of the first copy and of the second. Those of both stand at the same positions,
    /// before those of one.
    pub records: [Vec<Record>; 2],
    /// The positions of the records that each copy has lost.
    lost: [Vec<usize>; 2],
    /// How much each clock is above the one that both could have.
    clocks: [u64; 2],
    /// The counter of the last new label.
    last: u64,
}

impl Copies<'_> {
    /// Copies with this many records, or fewer.
    pub fn new(random: &mut Random, used: usize) -> Copies<'_> {
        let schema = random::schema(random);
        let mut shape = Shape::small(random);
        (shape.used, shape.capacity) = (used, used);
        shape.base = random.pick(&[0, 0, 1_000, 1 << 39]);
        let table = random::table(random, &random::decoded(&schema), &shape);
        let (records, last) = ([(); 2].map(|_| table.records.clone()), table.clock);
        Copies { random, schema, records, lost: [vec![], vec![]], clocks: [0, 0], last }
    }

    /// Copies with two records at least, and a few more.
    pub fn some(random: &mut Random) -> Copies<'_> {
        let used = 2 + random.below(3) as usize;
        Copies::new(random, used)
    }

    /// A label above all others so far.
    fn new_label(&mut self) -> u64 {
        self.last += 1 + self.random.below(2);
        label_of(self.last, 1 + self.random.below(255))
    }

    fn kinds(&self, relation: u64) -> Vec<Kind> {
        let schema = random::decoded(&self.schema);
        schema.relation(relation).map_or(vec![], |of| of.kinds.clone())
    }

    /// Each record of both with each of its fields, in any order.
    pub fn places(&mut self) -> Vec<(usize, usize)> {
        let mut places = Vec::new();
        for (at, record) in self.records[0].iter().enumerate() {
            places.extend((0..record.registers.len()).map(|field| (at, field)));
        }
        self.random.shuffle(&mut places);
        places
    }

    /// The position of a complete record that is not shown, if there is one.
    pub fn hidden(&self) -> Option<usize> {
        let (capacity, records) = (self.records[0].len(), self.records[0].clone());
        let table = Table { capacity, replica: 1, clock: self.last, records };
        let listed = shown(&random::decoded(&self.schema), &table);
        (0..capacity).find(|at| !listed[*at] && table.records[*at].is_complete())
    }

    /// A larger value, under a stamp that both have; they get one if they have none.
    fn raise_value(&mut self, side: usize, at: usize, field: usize) {
        let label = self.new_label();
        let kind = self.kinds(self.records[side][at].relation)[field];
        for records in &mut self.records {
            let record = &mut records[at];
            if record.registers[field].stamp == 0 {
                record.registers[field].stamp = record.label;
            }
        }
        let register = &mut self.records[side][at].registers[field];
        register.value = match kind {
            Kind::Plain => register.value + 1 + self.random.below(9),
            _ => label,
        };
    }

    fn raise_flag(&mut self, side: usize, at: usize) {
        let flag = self.records[side][at].flag.min(LARGEST_FLAG - 1);
        for records in &mut self.records {
            records[at].flag = flag;
        }
        self.records[side][at].flag += 1 + self.random.below(LARGEST_FLAG - flag).min(2);
    }

    /// A record that the other copy has not. A bare one has flag 0 and no stamps.
    fn add(&mut self, side: usize, bare: bool) {
        let label = self.new_label();
        let relation = 1 + self.random.below(random::decoded(&self.schema).relations.len() as u64);
        let register = if bare { Register::default() } else { Register { value: 0, stamp: label } };
        let registers = vec![register; self.kinds(relation).len()];
        let flag = if bare { 0 } else { self.random.below(3) };
        self.records[side].push(Record { relation, label, flag, registers });
    }

    /// This copy gets what the other has not. A place is given news once.
    pub fn tell(&mut self, side: usize, news: News) {
        match news {
            News::Clock => {
                let largest = LARGEST_COUNTER - self.last - 40;
                self.clocks[side] = self.random.pick(&[1, 2, 256, largest]);
            }
            News::Value(at, field) => self.raise_value(side, at, field),
            News::Stamp(at, field) => {
                self.records[side][at].registers[field].stamp = self.new_label();
            }
            News::Both(at, field) => {
                let stamp = self.new_label();
                let value = self.records[side][at].registers[field].value;
                let value = if value == 0 { stamp } else { 0 };
                self.records[side][at].registers[field] = Register { value, stamp };
            }
            News::Flag(at) => self.raise_flag(side, at),
            News::Record => self.add(side, false),
            News::Bare => self.add(side, true),
            News::Kept(at) => self.lost[1 - side].push(at),
        }
    }

    /// The words of both, with room for so many records more: any replica numbers, and any positions.
    pub fn words(&mut self, room: [usize; 2]) -> [Vec<u64>; 2] {
        [0, 1].map(|side| {
            let all = self.records[side].iter().enumerate();
            let kept = all.filter(|(at, _)| !self.lost[side].contains(at));
            let mut records: Vec<Record> = kept.map(|(_, record)| record.clone()).collect();
            self.random.shuffle(&mut records);
            let capacity = records.len() + room[side];
            let replica = self.random.pick(&[1, 2, 255]);
            Table { capacity, replica, clock: self.last + self.clocks[side], records }.words()
        })
    }

    /// The words of both, with some room or none.
    pub fn any_words(&mut self) -> [Vec<u64>; 2] {
        let room = [(); 2].map(|_| self.random.below(3) as usize);
        self.words(room)
    }
}
