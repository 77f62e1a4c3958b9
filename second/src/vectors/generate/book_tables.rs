//! Tables of the herd book in the making.

use crate::book::{self, CLEANING, COW, GROUP, KINDS, MILKING};
use crate::cases::record;
use crate::label::{label_of, Register, LABELS, LARGEST_COUNTER, LARGEST_FLAG};
use crate::layout;
use crate::random::{self, Random};
use crate::schema::Kind;
use crate::shown::{references, shown};
use crate::table::{Record, Table};

/// The kinds of the fields of a kind of record.
pub fn fields(kind: u64) -> Vec<Kind> {
    random::decoded(&book::schema()).relation(kind).map_or(vec![], |of| of.kinds.clone())
}

/// The columns that are keys of a kind of record.
pub fn keys(kind: u64) -> Vec<usize> {
    random::decoded(&book::schema()).relation(kind).map_or(vec![], |of| of.keys.concat())
}

/// The columns in which a kind of record names another, and the other's kind.
pub fn names(kind: u64) -> Vec<(usize, u64)> {
    let columns = fields(kind).into_iter().enumerate();
    columns.filter_map(|(column, field)| Some((column, field.target()?))).collect()
}

/// The column in which a kind of record names another by abort, and the other's kind.
pub fn names_by_abort(kind: u64) -> Option<(usize, u64)> {
    let mut columns = fields(kind).into_iter().enumerate();
    columns.find_map(|(column, field)| Some((column, field.abort_target()?)))
}

/// A table in the making. Labels rise, and new numbers are in no other record.
pub struct Made<'a> {
    pub random: &'a mut Random,
    pub records: Vec<Record>,
    last: u64,
    number: u64,
}

impl Made<'_> {
    pub fn new(random: &mut Random) -> Made<'_> {
        let last = random.pick(&[0, 0, 0, 1_000, 1 << 39]);
        let number = random.pick(&[0, 0, 40, 1 << 60]);
        Made { random, records: Vec::new(), last, number }
    }

    /// With a few records of any kind, which are shown.
    pub fn stocked(random: &mut Random) -> Made<'_> {
        let mut made = Made::new(random);
        for _ in 0..1 + made.random.below(3) {
            let kind = made.random.pick(&KINDS);
            made.some(kind);
        }
        made
    }

    pub fn new_label(&mut self) -> u64 {
        self.last += 1 + self.random.below(3);
        label_of(self.last, self.random.pick(&[1, 2, 3, 255]))
    }

    pub fn new_number(&mut self) -> u64 {
        self.number += 1 + self.random.below(3);
        self.number - 1
    }

    /// A number that is no label and not 0.
    pub fn no_label(&mut self) -> u64 {
        let far = label_of(1 + self.random.below(20), 1) + LABELS * (1 + self.random.below(8));
        self.random.pick(&[1, 255, 256, LABELS, u64::MAX, far])
    }

    pub fn even_flag(&mut self) -> u64 {
        self.random.pick(&[0, 0, 0, 0, 2, LARGEST_FLAG - 1])
    }

    /// Adds a complete record; gives its label.
    pub fn add(&mut self, kind: u64, flag: u64, values: &[u64]) -> u64 {
        let label = self.new_label();
        self.records.push(record(kind, label, flag, values));
        label
    }

    pub fn record(&mut self, kind: u64, label: u64) -> &mut Record {
        let at = self.records.iter().position(|record| record.name() == (kind, label));
        &mut self.records[at.unwrap_or(0)]
    }

    /// The records so far, with room for so many more and the least clock.
    pub fn table(&self, room: usize) -> Table {
        let clock = random::least_clock(&random::decoded(&book::schema()), &self.records);
        let records = self.records.clone();
        Table { capacity: records.len() + room, replica: 1, clock, records }
    }

    /// The labels of the shown records of a kind.
    pub fn shown(&self, kind: u64) -> Vec<u64> {
        let members = shown(&random::decoded(&book::schema()), &self.table(0));
        let records = self.records.iter().zip(members);
        records.filter(|(of, is)| *is && of.relation == kind).map(|(of, _)| of.label).collect()
    }

    /// The label of a shown record of a kind, or 0.
    pub fn reference(&mut self, kind: u64) -> u64 {
        let labels = self.shown(kind);
        match self.random.below(5) {
            0 => 0,
            1 | 2 if !labels.is_empty() => self.random.pick(&labels),
            _ => self.some(kind),
        }
    }

    /// Values for a record of a kind, with new numbers and with references to shown records.
    pub fn values(&mut self, kind: u64) -> Vec<u64> {
        let fields = fields(kind);
        let value = |field: &Kind| match field.target() {
            None => self.new_number(),
            Some(target) => self.reference(target),
        };
        fields.iter().map(value).collect()
    }

    /// Adds a shown record of a kind; what it names by abort may be struck off, and stays shown.
    pub fn some(&mut self, kind: u64) -> u64 {
        let (values, flag) = (self.values(kind), self.even_flag());
        if let Some((column, target)) = names_by_abort(kind) {
            if values[column] != 0 && self.random.chance(1, 3) {
                let flag = self.random.pick(&[1, 1, 3]);
                self.record(target, values[column]).flag = flag;
            }
        }
        self.add(kind, flag, &values)
    }

    /// Adds a standing record that names this group or robot by abort.
    pub fn hold(&mut self, kind: u64, label: u64) {
        let holder = if kind == GROUP { COW } else { self.random.pick(&[MILKING, CLEANING]) };
        let mut values = self.values(holder);
        if let Some((column, _)) = names_by_abort(holder) {
            values[column] = label;
        }
        self.add(holder, 0, &values);
    }

    /// Adds a group or a robot with the largest flag, which is shown because it is named by abort.
    pub fn spent(&mut self, kind: u64) -> u64 {
        let number = self.new_number();
        let label = self.add(kind, LARGEST_FLAG, &[number]);
        self.hold(kind, label);
        label
    }

    /// Whether a record is named by abort.
    fn is_held(&self, name: (u64, u64)) -> bool {
        let schema = random::decoded(&book::schema());
        self.records.iter().any(|record| references(&schema, record).contains(&(name, true)))
    }

    /// Hides a record: it is struck off and held by none, or it names what is not there, or a
    /// register has no stamp.
    pub fn hide(&mut self, kind: u64, label: u64) {
        let (columns, lost) = (names(kind), self.new_label());
        let (way, held) = (self.random.below(3), self.is_held((kind, label)));
        let column = self.random.below(fields(kind).len() as u64) as usize;
        let record = self.record(kind, label);
        match way {
            0 if !held => record.flag = record.flag / 2 * 2 + 1,
            1 if !columns.is_empty() => record.registers[columns[0].0].value = lost,
            _ => record.registers[column] = Register::default(),
        }
    }

    /// A label, of which no record of a kind is shown: of none, of a hidden one, of another kind's
    /// or of one that conflicts with an older one.
    pub fn hidden(&mut self, kind: u64) -> u64 {
        match self.random.below(4) {
            0 => self.new_label(),
            1 => {
                let other = self.random.pick(&KINDS);
                self.some(if other == kind { kind % 6 + 1 } else { other })
            }
            2 => {
                let mut values = self.values(kind);
                self.add(kind, 0, &values);
                if kind == COW {
                    values[1] = self.new_number();
                }
                self.add(kind, 0, &values)
            }
            _ => {
                let label = self.some(kind);
                self.hide(kind, label);
                label
            }
        }
    }

    /// The words of the table, and the index of a record, 0 if it is not there. Records stand in
    /// any order.
    pub fn words(&mut self, room: usize, clock_at_end: bool, name: (u64, u64)) -> (Vec<u64>, u64) {
        self.random.shuffle(&mut self.records);
        let mut table = self.table(room);
        table.replica = self.random.pick(&[1, 2, 3, 255]);
        table.clock += self.random.below(3);
        if clock_at_end {
            table.clock = LARGEST_COUNTER;
        }
        let index = table.positions().get(&name).map_or(0, |at| *at as u64 + 1);
        (table.words(), index)
    }

    /// Room for so many more records that the table has the largest capacity.
    pub fn most_room(&self) -> usize {
        layout::CAPACITY - self.records.len()
    }
}
