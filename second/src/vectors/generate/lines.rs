//! Records in a line: each conflicts with the next one alone, on the two keys of their relation in
//! turn.

use super::sources::{capacity, marks_words};
use crate::cases::{record, schema_words};
use crate::label::{counter, label_of, replica, Register, LARGEST_FLAG, LARGEST_REPLICA, NONE};
use crate::layout::{abort, mask, propagation, FIELDS, PLAIN};
use crate::random::{self, Random};
use crate::schema::{Kind, Relation};
use crate::shown::references;
use crate::table::{Record, Table};
use crate::vectors::item::{Item, MARKS};

/// What the records in line reference, they themselves, and what references them.
pub const TARGET: u64 = 1;
pub const LINE: u64 = 2;
pub const HOLDER: u64 = 3;

/// Schemas in which relation 2 has two keys: plain ones in either order, with references, and of
/// several fields, of which one may be in both.
pub fn schemas() -> Vec<Vec<u64>> {
    let (plain, to) = (PLAIN, TARGET);
    let of_line: [(&[u64], u64, u64); 7] = [
        (&[plain, plain, abort(to)], 0b001, 0b010),
        (&[plain, plain, abort(to)], 0b010, 0b001),
        (&[abort(to), plain, propagation(to)], 0b001, 0b100),
        (&[propagation(to), plain, abort(to)], 0b010, 0b001),
        (&[plain, abort(to), plain, propagation(to)], 0b0100, 0b0011),
        (&[plain, plain, abort(to), propagation(to)], 0b0011, 0b0110),
        (&[plain; FIELDS], mask(&[1, 2, 3, 4]), mask(&[9, 10, 11, 12])),
    ];
    let holder = [abort(LINE), propagation(LINE), plain];
    of_line.map(|line| schema_words(&[(&[plain], 1, 0), line, (&holder, 0, 0)])).to_vec()
}

/// In which order the labels stand along the line.
#[derive(Clone, Copy)]
pub enum Order {
    Rising,
    Falling,
    Any,
}

pub const ORDERS: [Order; 3] = [Order::Rising, Order::Falling, Order::Any];

/// A table in the making. The values under a key are told by a class: a record in line shares its
/// class of one key with the one before it, and its class of the other with the next.
pub struct Line<'a> {
    pub random: &'a mut Random,
    pub schema: Vec<u64>,
    /// The records in line, then the others.
    pub records: Vec<Record>,
    pub length: usize,
    /// The classes of each record in line; none where a reference of the key is empty.
    pub classes: Vec<[Option<usize>; 2]>,
    /// Which records in line stand, and which reference what is not there.
    pub stands: Vec<bool>,
    lost: Vec<bool>,
    targets: Vec<u64>,
    /// The least plain value of a key.
    least: u64,
    last: u64,
}

impl Line<'_> {
    pub fn new(random: &mut Random, schema: Vec<u64>, length: usize, order: Order) -> Line<'_> {
        let last = label_of(1 + random.pick(&[0, 0, 1_000, 1 << 39]), 1);
        let least = random.pick(&[0, 7, 40, u64::MAX - 20]);
        let first = random.below(2) as usize;
        // Link `at` joins record `at` to the next one.
        let class = |at: usize, key: usize| {
            if (at + first) % 2 == key {
                at
            } else {
                at.checked_sub(1).unwrap_or(length)
            }
        };
        let classes = (0..length).map(|at| [0, 1].map(|key| Some(class(at, key)))).collect();
        let (stands, lost) = (vec![true; length], vec![false; length]);
        let (records, targets) = (vec![], vec![]);
        let mut line =
            Line { random, schema, records, length, classes, stands, lost, targets, least, last };
        line.fill(order);
        line
    }

    /// A class that no record in line has.
    pub fn free_class(&self) -> usize {
        self.length + 1
    }

    fn fill(&mut self, order: Order) {
        let mut labels: Vec<u64> = (0..self.length).map(|_| self.new_label()).collect();
        match order {
            Order::Rising => {}
            Order::Falling => labels.reverse(),
            Order::Any => self.random.shuffle(&mut labels),
        }
        let Relation { kinds, keys, .. } = self.relation();
        let by_reference = keys.concat().into_iter().any(|field| kinds[field] != Kind::Plain);
        let count = if by_reference { self.length + 3 } else { 1 };
        self.targets = (0..count).map(|_| self.new_label()).collect();
        for (at, label) in labels.into_iter().enumerate() {
            let values = self.values(self.classes[at].map(|class| class.unwrap_or(0)));
            let flag = self.even_flag();
            self.records.push(record(LINE, label, flag, &values));
        }
        for (at, label) in self.targets.iter().enumerate() {
            self.records.push(record(TARGET, *label, 0, &[at as u64]));
        }
    }

    fn relation(&self) -> Relation {
        let schema = random::decoded(&self.schema);
        schema.relations[LINE as usize - 1].clone()
    }

    /// A label above all others so far: of the same counter, or of a larger one.
    pub fn new_label(&mut self) -> u64 {
        let (counter, replica) = (counter(self.last), replica(self.last));
        self.last = if replica < LARGEST_REPLICA && self.random.chance(1, 3) {
            label_of(counter, replica + 1)
        } else {
            let more = 1 + self.random.below(2);
            label_of(counter + more, self.random.pick(&[1, 2, 3, LARGEST_REPLICA]))
        };
        self.last
    }

    fn even_flag(&mut self) -> u64 {
        self.random.pick(&[0, 0, 0, 2, LARGEST_FLAG - 1])
    }

    fn odd_flag(&mut self) -> u64 {
        self.random.pick(&[1, 1, 3, LARGEST_FLAG - 2])
    }

    /// The field that tells the class of a key: its first that the other key has not.
    pub fn telling(&self, key: usize) -> usize {
        let keys = self.relation().keys;
        let own = |field: &&usize| !keys[1 - key].contains(*field);
        keys[key].iter().find(own).copied().unwrap_or(0)
    }

    /// The value of a field of a key for a class.
    pub fn value(&self, field: usize, class: usize) -> u64 {
        match self.relation().kinds[field] {
            Kind::Plain => self.least + class as u64,
            _ => self.targets[class % self.targets.len()],
        }
    }

    /// The values of a record with these classes; other fields of the keys have the same value in
    /// all records.
    pub fn values(&mut self, classes: [usize; 2]) -> Vec<u64> {
        let relation = self.relation();
        let telling = [self.telling(0), self.telling(1)];
        let mut values = Vec::new();
        for (field, kind) in relation.kinds.iter().enumerate() {
            let in_a_key = relation.keys.iter().any(|key| key.contains(&field));
            values.push(match telling.iter().position(|of| *of == field) {
                Some(key) => self.value(field, classes[key]),
                None if in_a_key => self.value(field, self.length + 2),
                None if *kind == Kind::Plain => self.random.below(256),
                None => self.random.pick(&[0, self.targets[0]]),
            });
        }
        values
    }

    /// The key on which a record in line conflicts with the next.
    fn link(&self, at: usize) -> Option<usize> {
        let (classes, next) = (self.classes[at], self.classes[at + 1]);
        (0..2).find(|key| classes[*key].is_some() && classes[*key] == next[*key])
    }

    /// The standing records in line that have a class of a key.
    pub fn having(&self, key: usize, class: usize) -> Vec<usize> {
        let has = |at: &usize| self.stands[*at] && self.classes[*at][key] == Some(class);
        (0..self.length).filter(has).collect()
    }

    /// The records in line that step 3 keeps: one whose neighbours are younger, do not stand, do not
    /// conflict with it or are dropped.
    pub fn kept(&self) -> Vec<bool> {
        let mut order: Vec<usize> = (0..self.length).filter(|at| self.stands[*at]).collect();
        order.sort_by_key(|at| self.records[*at].label);
        let mut kept = vec![false; self.length];
        for at in order {
            let before = at > 0 && kept[at - 1] && self.link(at - 1).is_some();
            let after = at + 1 < self.length && kept[at + 1] && self.link(at).is_some();
            kept[at] = !before && !after;
        }
        kept
    }

    /// Whether step 3 keeps a record in line that conflicts with an older one that it drops.
    pub fn is_freed(&self, at: usize) -> bool {
        let kept = self.kept();
        let conflicts = |with: usize| self.link(at.min(with)).is_some();
        let older = |with: usize| self.records[with].label < self.records[at].label;
        let mut neighbours = (0..self.length).filter(|with| with.abs_diff(at) == 1);
        kept[at] && neighbours.any(|with| self.stands[with] && older(with) && conflicts(with))
    }

    /// The records in line that are shown.
    pub fn shown(&self) -> Vec<bool> {
        self.kept().into_iter().zip(&self.lost).map(|(kept, lost)| kept && !lost).collect()
    }

    /// A record in line does not stand: it is deleted or incomplete.
    pub fn hide(&mut self, at: usize) {
        self.stands[at] = false;
        if self.random.chance(2, 3) {
            self.records[at].flag = self.odd_flag();
        } else {
            let field = self.random.below(self.records[at].registers.len() as u64) as usize;
            self.records[at].registers[field] = Register::default();
        }
    }

    /// A record in line is deleted, and stands since another references it by abort.
    pub fn hold(&mut self, at: usize) {
        self.records[at].flag = self.odd_flag();
        self.reference(at, true);
    }

    /// A reference of the key on which a record in line conflicts with the next is empty in one of
    /// them, or in both. Keys without references stay.
    pub fn unlink(&mut self, at: usize) {
        let Some(key) = self.link(at) else {
            return;
        };
        let relation = self.relation();
        let fields = relation.keys[key].iter();
        let mut fields = fields.filter(|field| !relation.keys[1 - key].contains(*field));
        let is_reference = |field: &&usize| relation.kinds[**field] != Kind::Plain;
        let Some(field) = fields.find(is_reference) else {
            return;
        };
        let sides: &[usize] = self.random.pick(&[&[0, 1][..], &[0, 1], &[0], &[1]]);
        for side in sides {
            self.records[at + side].registers[*field].value = 0;
            self.classes[at + side][key] = None;
        }
    }

    /// The first reference of a record in line that is in no key.
    pub fn free_reference(&self) -> Option<usize> {
        let Relation { kinds, keys, .. } = self.relation();
        let in_a_key = |field: usize| keys.iter().any(|key| key.contains(&field));
        (0..kinds.len()).find(|field| kinds[*field] != Kind::Plain && !in_a_key(*field))
    }

    /// A record in line references this one, in a field that is in no key. Tells whether there is
    /// one, with a stamp.
    pub fn aim(&mut self, at: usize, to: u64) -> bool {
        let has_stamp = |field: &usize| self.records[at].registers[*field].stamp != NONE;
        let field = self.free_reference().filter(has_stamp);
        if let Some(field) = field {
            self.records[at].registers[field].value = to;
        }
        field.is_some()
    }

    /// A record in line references what is not there, and is lost in step 4.
    pub fn lose(&mut self, at: usize) {
        let unknown = self.new_label();
        self.lost[at] = self.aim(at, unknown);
    }

    /// Adds a target; gives its label.
    pub fn target(&mut self, flag: u64) -> u64 {
        let label = self.new_label();
        self.records.push(record(TARGET, label, flag, &[1_000]));
        label
    }

    /// Adds a record that references one in line by abort or by propagation.
    pub fn reference(&mut self, at: usize, by_abort: bool) {
        let values = self.holder(at, by_abort);
        let label = self.new_label();
        self.records.push(record(HOLDER, label, 0, &values));
    }

    /// The values of a record that references one in line.
    pub fn holder(&mut self, at: usize, by_abort: bool) -> Vec<u64> {
        let mut values = vec![0, 0, self.random.below(256)];
        values[!by_abort as usize] = self.records[at].label;
        values
    }

    /// The table: records stand in any order.
    pub fn table(&mut self, room: usize) -> Table {
        let mut records = self.records.clone();
        self.random.shuffle(&mut records);
        let least = random::least_clock(&random::decoded(&self.schema), &records);
        let (replica, more) = (self.random.pick(&[1, 2, 255]), self.random.below(3));
        Table { capacity: records.len() + room, replica, clock: least + more, records }
    }

    /// The marks of this table, in which all targets are shown.
    fn marks(&self, table: &Table) -> Vec<u64> {
        let (schema, shown) = (random::decoded(&self.schema), self.shown());
        let in_line = |label: u64| (0..self.length).find(|at| self.records[*at].label == label);
        let line_shows = |label: u64| in_line(label).is_some_and(|at| shown[at]);
        let is_shown = |record: &Record| match record.relation {
            TARGET => true,
            LINE => line_shows(record.label),
            _ => references(&schema, record).iter().all(|to| line_shows(to.0 .1)),
        };
        let mut marks: Vec<u64> = table.records.iter().map(|of| is_shown(of) as u64).collect();
        marks.resize(table.capacity, 0);
        marks
    }

    /// The marks of the table as an item, and what they must be.
    pub fn marks_item(&mut self, category: u8) -> (Item, Vec<u64>) {
        let room = self.random.below(2) as usize;
        let table = self.table(room);
        let (marks, words) = (self.marks(&table), table.words());
        let lent = marks_words(self.random, capacity(&words));
        let slices = vec![self.schema.clone(), words, lent];
        (Item { category, call: MARKS, slices, words: vec![] }, marks)
    }
}
