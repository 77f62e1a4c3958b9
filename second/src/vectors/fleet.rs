//! A fleet: tables, a delta and marks that stay from item to item.

use super::digest::digest;
use super::edit::Edit;
use super::item::{
    outcome, Item, Outcome, FLEET_BEGIN, FLEET_COPY, FLEET_COPY_DELTA, FLEET_DELETION,
    FLEET_INSERTION, FLEET_MARKS, FLEET_MERGE, FLEET_SPOIL, FLEET_START, FLEET_UPDATE,
};
use crate::layout;
use crate::shown::given;
use crate::table::capacity_of;
use crate::{marks, merge, number, start, walk};

/// Slots 0 to 4 are the tables of the fleet, of which it has three to five; slots 5 to 7 are copies.
pub const SLOTS: usize = 8;

pub const MOST_TABLES: usize = 5;

#[derive(Clone)]
pub struct Fleet {
    pub schema: Vec<u64>,
    pub tables: u64,
    pub slots: Vec<Vec<u64>>,
    pub delta: Vec<u64>,
    pub marks: Vec<u8>,
}

impl Default for Fleet {
    fn default() -> Fleet {
        Fleet {
            schema: Vec::new(),
            tables: 0,
            slots: vec![vec![0; layout::table(0)]; SLOTS],
            delta: vec![0; layout::DELTA],
            marks: Vec::new(),
        }
    }
}

impl Fleet {
    /// The digest of all slots and of the delta, each with its length before it.
    fn digest(&self) -> u64 {
        let mut sum = 0;
        for slot in self.slots.iter().chain([&self.delta]) {
            sum = digest(sum, slot.len() as u64);
            sum = slot.iter().fold(sum, |sum, word| digest(sum, *word));
        }
        sum
    }

    fn begin(&mut self, schema: &[u64], tables: u64, capacities: &[u64]) {
        *self = Fleet::default();
        self.schema = schema.to_vec();
        self.tables = tables;
        for (slot, capacity) in self.slots.iter_mut().zip(capacities) {
            *slot = vec![0; layout::table(*capacity as usize)];
        }
    }

    fn edit(&mut self, slot: usize, edit: &Edit) -> (u64, u64) {
        edit.run(&self.schema, &mut self.slots[slot], &mut self.delta)
    }

    /// Runs a fleet item; its slots are below 8, and its capacities at most 24.
    pub fn run(&mut self, item: &Item) -> Outcome {
        let w = &item.words;
        let slot = w[0] as usize % SLOTS;
        let mut results = vec![];
        let answer = match item.call {
            FLEET_BEGIN => {
                self.begin(&item.slices[0], w[0], &w[1..]);
                0
            }
            FLEET_START => number(&start(&mut self.slots[slot], w[1])),
            FLEET_COPY => {
                self.slots[w[1] as usize % SLOTS] = self.slots[slot].clone();
                0
            }
            FLEET_COPY_DELTA => {
                self.slots[slot] = self.delta.clone();
                0
            }
            FLEET_SPOIL => {
                if let Some(word) = self.slots[slot].get_mut(w[1] as usize) {
                    *word = w[2];
                }
                0
            }
            FLEET_MERGE => {
                let other = self.slots[w[1] as usize % SLOTS].clone();
                let answer = merge(&self.schema, &mut self.slots[slot], &other);
                results.push(answer.unwrap_or(0) as u64);
                number(&answer)
            }
            FLEET_INSERTION => {
                let insertion = Edit::Insertion { relation: w[1], values: item.slices[0].clone() };
                let (answer, label) = self.edit(slot, &insertion);
                results.push(label);
                answer
            }
            FLEET_UPDATE => {
                self.edit(slot, &Edit::Update { index: w[1], field: w[2], value: w[3] }).0
            }
            FLEET_DELETION => self.edit(slot, &Edit::Deletion { index: w[1] }).0,
            FLEET_MARKS => {
                let table = &self.slots[slot];
                self.marks = vec![0; capacity_of(table.len()).unwrap_or(0)];
                let answer = marks(&self.schema, table, &mut self.marks);
                let sum = self.marks.iter().fold(0, |sum, mark| digest(sum, *mark as u64));
                return outcome(number(&answer), vec![answer.unwrap_or(0), sum], vec![]);
            }
            _ => {
                let mut place = w[1];
                let answer = walk(&self.schema, &self.slots[slot], &self.marks, &mut place);
                return outcome(number(&answer), vec![given(&answer), place], vec![]);
            }
        };
        results.push(self.digest());
        outcome(answer, results, vec![])
    }
}
