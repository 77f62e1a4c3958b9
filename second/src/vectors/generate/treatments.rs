//! Tables with a relation of up to twelve fields, in the making.

use crate::cases::{record, schema_words};
use crate::label::{label_of, LARGEST_FLAG};
use crate::layout::{abort, mask, propagation, FIELDS, PLAIN, RELATIONS};
use crate::random::{self, Random};
use crate::table::{Record, Table};

/// What the treatments reference.
pub const TARGET: u64 = 1;

/// Keys with fields above the eighth, alone and with others.
pub const NEW_KEYS: [&[usize]; 6] =
    [&[12], &[9, 10, 11, 12], &[1, 12], &[8, 9], &[3, 10, 11], &[11]];

/// Targets, and treatments that reference them or each other. Labels rise.
pub struct Treatments<'a> {
    pub random: &'a mut Random,
    pub schema: Vec<u64>,
    /// The relation of the treatments, which is the schema's last.
    pub relation: u64,
    pub records: Vec<Record>,
    last: u64,
}

/// Kinds of so many fields, with references to targets among them.
pub fn kinds(random: &mut Random, fields: usize) -> Vec<u64> {
    let kinds = [PLAIN, PLAIN, abort(TARGET), propagation(TARGET)];
    (0..fields).map(|_| random.pick(&kinds)).collect()
}

/// A relation for the treatments.
pub fn some_relation(random: &mut Random) -> u64 {
    TARGET + 1 + random.below(RELATIONS as u64 - TARGET)
}

impl Treatments<'_> {
    pub fn new<'a>(
        random: &'a mut Random,
        relation: u64,
        kinds: &[u64],
        masks: [u64; 2],
    ) -> Treatments<'a> {
        let mut blocks: Vec<(&[u64], u64, u64)> = vec![(&[PLAIN], 0, 0); relation as usize - 1];
        blocks.push((kinds, masks[0], masks[1]));
        let last = random.pick(&[0, 0, 0, 300, 1 << 39]);
        Treatments { random, schema: schema_words(&blocks), relation, records: vec![], last }
    }

    /// Twelve fields without keys, of which these have these kinds.
    pub fn with<'a>(random: &'a mut Random, wanted: &[(usize, u64)]) -> Treatments<'a> {
        let relation = some_relation(random);
        let mut kinds = kinds(random, FIELDS);
        for (field, kind) in wanted {
            kinds[*field] = *kind;
        }
        Treatments::new(random, relation, &kinds, [0, 0])
    }

    /// Twelve fields, of which one above the eighth has this kind, and a key that names these.
    pub fn keyed<'a>(random: &'a mut Random, key: &[usize], kind: u64) -> Treatments<'a> {
        let relation = some_relation(random);
        let mut kinds = kinds(random, FIELDS);
        key.iter().for_each(|field| kinds[field - 1] = PLAIN);
        kinds[new_field(key)] = kind;
        let masks = random.pick(&[[mask(key), 0], [0, mask(key)]]);
        Treatments::new(random, relation, &kinds, masks)
    }

    /// Values that agree with these on a key.
    pub fn agreeing(&mut self, key: &[usize], values: &[u64]) -> Vec<u64> {
        let wanted: Vec<(usize, u64)> =
            key.iter().map(|field| (field - 1, values[field - 1])).collect();
        self.values(&wanted)
    }

    /// Three values of a field of this kind; its references lead to targets that are shown.
    pub fn three(&mut self, kind: u64) -> [u64; 3] {
        if kind == PLAIN {
            [40, 41, 42]
        } else {
            [(); 3].map(|_| self.target(0))
        }
    }

    pub fn new_label(&mut self) -> u64 {
        self.last += 1 + self.random.below(3);
        label_of(self.last, self.random.pick(&[1, 2, 3, 255]))
    }

    pub fn even_flag(&mut self) -> u64 {
        self.random.pick(&[0, 0, 0, 2, LARGEST_FLAG - 1])
    }

    pub fn odd_flag(&mut self) -> u64 {
        self.random.pick(&[1, 1, 3, LARGEST_FLAG - 2])
    }

    /// Adds a target; gives its label.
    pub fn target(&mut self, flag: u64) -> u64 {
        let (label, value) = (self.new_label(), self.random.below(256));
        self.records.push(record(TARGET, label, flag, &[value]));
        label
    }

    /// Values of a treatment: numbers that are no labels, and empty references, but for these.
    pub fn values(&mut self, wanted: &[(usize, u64)]) -> Vec<u64> {
        let decoded = random::decoded(&self.schema);
        let kinds = decoded.relation(self.relation).map_or(vec![], |of| of.kinds.clone());
        let mut values = Vec::new();
        for kind in kinds {
            let number = self.random.below(256);
            values.push(if kind.target().is_none() { number } else { 0 });
        }
        for (field, value) in wanted {
            values[*field] = *value;
        }
        values
    }

    /// Adds a treatment with these values; gives its label.
    pub fn add(&mut self, flag: u64, values: &[u64]) -> u64 {
        let label = self.new_label();
        self.records.push(record(self.relation, label, flag, values));
        label
    }

    /// Adds an even treatment in which these fields have these values; gives its label.
    pub fn treatment(&mut self, wanted: &[(usize, u64)]) -> u64 {
        let (flag, values) = (self.even_flag(), self.values(wanted));
        self.add(flag, &values)
    }

    pub fn record(&mut self, label: u64) -> &mut Record {
        let at = self.records.iter().position(|record| record.label == label);
        &mut self.records[at.unwrap_or(0)]
    }

    /// The table: records stand in any order.
    pub fn table(&mut self, room: usize) -> Table {
        self.random.shuffle(&mut self.records);
        let records = self.records.clone();
        let least = random::least_clock(&random::decoded(&self.schema), &records);
        let (replica, more) = (self.random.pick(&[1, 2, 255]), self.random.below(3));
        Table { capacity: records.len() + room, replica, clock: least + more, records }
    }
}

/// The last field of a key, counted from 0.
pub fn new_field(key: &[usize]) -> usize {
    key.last().map_or(0, |field| field - 1)
}

/// The index of the record with a label.
pub fn index(table: &Table, label: u64) -> u64 {
    table.records.iter().position(|record| record.label == label).map_or(0, |at| at as u64 + 1)
}
